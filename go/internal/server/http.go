package server

import (
	"context"
	"errors"
	"net/http"
	"regexp"
	"strconv"
	"strings"
	"time"

	"svid.example/go/v3/svid"
	"svid.example/go/v3/svidhttp"
)

// refusalOf finds the refusal in an error.
func refusalOf(err error) (svid.Refusal, bool) {
	if err == nil {
		return 0, false // (errors.As asks for memory)
	}
	var r svid.Refusal
	ok := errors.As(err, &r)
	return r, ok
}

// Handler answers /check and every path under it, /metrics, /healthz and /readyz.
// It does not clean paths and never redirects: a proxy puts the path of its own
// request behind /check, whatever that is.
func (e *Engine) Handler() http.Handler {
	return http.HandlerFunc(func(w http.ResponseWriter, r *http.Request) {
		if r.ContentLength != 0 {
			// Nothing reads a body. The answer goes out before it comes, and nothing is a request that stands behind it.
			w.Header()["Connection"] = connectionEnds
		}
		switch path := r.URL.Path; {
		case path == "/check" || strings.HasPrefix(path, "/check/"):
			e.serveCheck(w, r)
		case path == "/metrics":
			w.Header().Set("Content-Type", "text/plain; version=0.0.4; charset=utf-8")
			_ = e.WriteMetrics(w)
		case path == "/healthz":
			_, _ = w.Write([]byte("ok\n"))
		case path == "/readyz":
			if err := e.Ready(); err != nil {
				http.Error(w, withoutAddresses(err.Error()), http.StatusServiceUnavailable)
				return
			}
			_, _ = w.Write([]byte("ready\n"))
		default:
			http.NotFound(w, r)
		}
	})
}

// addresses are in an error where servers and files are: URLs, HOST:PORT, IP addresses, paths, and names that were looked up or that a certificate has.
var addresses = regexp.MustCompile(`[a-z][a-z0-9+.-]*://[^\s"]+|\[[^\s\]]+\](?::\d+)?|[\w.-]+:\d+|\d+(?:\.\d+){3}|(?:[0-9A-Fa-f]*:){2}[0-9A-Fa-f:.%\w]+|` +
	`(\s"?|:)/[^\s":;,]*|(lookup |certificate for |valid for ).+?(: | because |$)`)

// withoutAddresses is what a stranger may hear of an error. The log has all of it.
func withoutAddresses(text string) string { return addresses.ReplaceAllString(text, "$1$2..$3") }

// serveCheck judges the bearer token of a request. It answers:
//
//	200  X-Spiffe-Id, X-Svid-Audience and X-Svid-Expires say for whom and for how long
//	401  WWW-Authenticate as RFC 6750 has it, and a JSON body with the refusal
//	403  the token is good, and Options.Allow does not allow its subject; it is not used up
//	503  the token could not be judged; it is not accepted
func (e *Engine) serveCheck(w http.ResponseWriter, r *http.Request) {
	headers := w.Header()
	headers["Cache-Control"] = noStore
	who := callerOf(r)
	who.bound = e.callerIn(r.Header)
	values := &[4]string{who.request}
	headers["X-Request-Id"] = values[0:1:1]
	v := e.judgeBearer(r.Context(), who, r.Header["Authorization"])
	if v.err != nil {
		e.denial(v.err).Write(w)
		return
	}
	// (Header.Set would make each name canonical, and ask for memory for each value.)
	values[1], values[2], values[3] = v.values()
	headers["X-Spiffe-Id"], headers["X-Svid-Audience"], headers["X-Svid-Expires"] = values[1:2:2], values[2:3:3], values[3:4:4]
	w.WriteHeader(http.StatusOK)
}

// A verdict is what becomes of a request.
type verdict struct {
	token    string
	accepted svid.Accepted
	audience string           // the first of the engine's that an accepted token names
	err      error            // nil for an accepted token, a svid.NoBearer for none; else as that of Engine.Check
	owner    svid.ValidatorID // in mode strict: whose claim the token is, where the group's store said so; else zeros
	other    bool             // in mode bound: the token is another caller's
}

// judgeBearer judges the bearer token of these fields Authorization, counts that, and logs it.
func (e *Engine) judgeBearer(ctx context.Context, who caller, authorization []string) verdict {
	token, err := svid.BearerToken(authorization)
	if err == nil {
		return e.judgeToken(ctx, who, token)
	}
	if none := svid.NoBearer(0); errors.As(err, &none) {
		e.Metrics.noToken.Add(1)
		return verdict{err: err}
	}
	v := verdict{token: token, err: err}
	e.note(time.Now(), who, v)
	return v
}

// judgeToken judges a token, counts that, and logs it.
func (e *Engine) judgeToken(ctx context.Context, who caller, token string) verdict {
	from, v := time.Now(), verdict{token: token}
	if rules := e.judge(ctx, who.bound, &v); v.err == nil {
		v.audience = rules.audience(token)
	}
	e.note(from, who, v)
	return v
}

// note counts a verdict, and logs it.
func (e *Engine) note(from time.Time, who caller, v verdict) {
	took := time.Since(from)
	e.Metrics.observe(v.err, took)
	e.noteMemory(v.err)
	e.logDecision(from, took, who, v)
}

// values are those of X-Spiffe-Id, X-Svid-Audience and X-Svid-Expires.
func (v *verdict) values() (id, audience, expires string) {
	return v.accepted.ID, v.audience, strconv.FormatUint(v.accepted.Use.Expires, 10)
}

// connectionEnds is the Connection of an answer to a request with a body. Nobody may change it.
var connectionEnds = []string{"close"}

// noStore is the Cache-Control of each answer. Nobody may change it.
var noStore = []string{"no-store"}

func (e *Engine) denial(err error) svidhttp.Denial {
	denial := svidhttp.DenialOf(err)
	if denial.Status == http.StatusServiceUnavailable {
		denial.Reason = e.ReasonOf(err)
	}
	return denial
}

// ReasonOf is the word by which a client hears why a token could not be judged. The error itself may name files and
// addresses, so it goes to the log alone.
func (e *Engine) ReasonOf(err error) string {
	var kept *notKept
	switch {
	case errors.Is(err, ErrNotReady):
		return "NotReady"
	case errors.Is(err, ErrNoBundle):
		return "NoBundle"
	case errors.Is(err, ErrLost):
		return "EntriesLost"
	case errors.Is(err, svid.ErrJump):
		return "ClockJump"
	case errors.Is(err, svid.ErrNoMemory):
		return "NoMemory"
	case errors.As(err, &kept):
		return "NotKept"
	case errors.Is(err, ErrNoCaller):
		return "NoCaller"
	case e.Mode.claims():
		return "NotClaimed"
	}
	return "NotJudged"
}

// audience is the first of the audiences that a token names which was accepted by these rules.
func (r *Rules) audience(token string) string {
	if len(r.Audiences) == 1 {
		return r.Audiences[0] // or the token would not be accepted
	}
	return readUnverified(token).audience(r.Audiences)
}

// logDecision writes the line of a judged token, without the token, where the log has such lines.
func (e *Engine) logDecision(at time.Time, took time.Duration, who caller, v verdict) {
	level := Decisions
	if _, refused := refusalOf(v.err); v.err != nil && !refused && v.err != ErrNotAllowed {
		level = Errors
	}
	if e.Log.Writes(level) { // (or no memory is asked for)
		e.writeDecision(at, took, level, who, v)
	}
}

func (e *Engine) writeDecision(at time.Time, took time.Duration, level Level, who caller, v verdict) {
	err := v.err
	refusal, refused := refusalOf(err)
	if who.request == "" {
		who.request = names.next()
	}
	said := readUnverified(v.token)
	d := decision{Time: at, Level: level.String(), Request: who.request, Client: who.client, Caller: who.bound.name, ValidatorID: e.ValidatorID, UsedBy: v.owner, Micros: took.Microseconds()}
	switch {
	case err == nil:
		d.Event, d.Subject, d.KeyID = "accepted", v.accepted.ID, said.KeyID
		d.Aud, d.Expires, d.Key = v.audience, v.accepted.Use.Expires, &v.accepted.Use.Key
	case refused:
		d.Event, d.Reason, d.Says, d.Claimed = "refused", refusal.String(), refusal.Sentence(), said.short()
		if v.other {
			d.Says = "another caller used this token first"
		}
	case err == ErrNotAllowed:
		d.Event, d.Reason, d.Says, d.Claimed = "refused", "NotAllowed", err.Error(), said.short()
	default:
		d.Event, d.Reason, d.Claimed = "unavailable", e.Log.reason(err), said.short()
	}
	e.Log.decide(&d)
}
