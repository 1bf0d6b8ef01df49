package server

import (
	"context"
	"encoding/json"
	"errors"
	"fmt"
	"net/http"

	"svid.example/go/v3/svid"
)

// mostAdminBody is how many bytes of a request to the admin socket are read.
const mostAdminBody = 2 * svid.MaxToken

// forgets is the warning of a withdrawal that is in memory alone.
const forgets = "the sidecar forgets this withdrawal when it ends, since it has neither --state nor --store"

// A Withdrawal is the body of POST /withdraw: a token, or its key and expiry.
type Withdrawal struct {
	Token string `json:"token,omitempty"`
	Key   string `json:"key,omitempty"`
	Exp   uint64 `json:"exp,omitempty"`
}

// A Reloaded is the body of a good answer to POST /reload: which options changed, and which of those count only after a restart.
type Reloaded struct {
	Changed []string `json:"changed"`
	Restart []string `json:"restart,omitempty"`
}

// Admin answers on the admin socket: POST /withdraw, POST /reload, GET /messages
// (the whole record, as docs/FORMATS.md has messages), and what Handler has. Nothing of it may be reachable by who may not withdraw tokens.
// reload returns once what it is to read was read, or ctx has ended. Its error is the body of a 422.
func (e *Engine) Admin(reload func(ctx context.Context) (Reloaded, error)) http.Handler {
	mux := http.NewServeMux()
	mux.HandleFunc("/withdraw", only(http.MethodPost, e.serveWithdraw))
	mux.HandleFunc("/messages", only(http.MethodGet, func(w http.ResponseWriter, r *http.Request) {
		w.Header().Set("Content-Type", "application/octet-stream")
		if err := e.Save(w); err != nil {
			panic(http.ErrAbortHandler) // the reader sees that the record is not whole
		}
	}))
	mux.HandleFunc("/reload", only(http.MethodPost, func(w http.ResponseWriter, r *http.Request) {
		done, err := reload(r.Context())
		if err != nil {
			http.Error(w, err.Error(), http.StatusUnprocessableEntity)
			return
		}
		w.Header().Set("Content-Type", "application/json")
		_ = json.NewEncoder(w).Encode(done)
	}))
	mux.Handle("/", e.Handler())
	return mux
}

// only answers 405 to every other method.
func only(method string, do http.HandlerFunc) http.HandlerFunc {
	return func(w http.ResponseWriter, r *http.Request) {
		if r.Method != method {
			w.Header().Set("Allow", method)
			http.Error(w, "only "+method, http.StatusMethodNotAllowed)
			return
		}
		do(w, r)
	}
}

func (e *Engine) serveWithdraw(w http.ResponseWriter, r *http.Request) {
	var asked Withdrawal
	if err := json.NewDecoder(http.MaxBytesReader(w, r.Body, mostAdminBody)).Decode(&asked); err != nil {
		http.Error(w, err.Error(), http.StatusBadRequest)
		return
	}
	key, exp, err := e.named(asked)
	if err != nil {
		http.Error(w, err.Error(), http.StatusUnprocessableEntity)
		return
	}
	use, usedBy, err := e.Withdraw(key, exp)
	switch {
	case errors.Is(err, svid.ErrGone):
		http.Error(w, err.Error(), http.StatusUnprocessableEntity)
	case err != nil:
		http.Error(w, err.Error(), http.StatusServiceUnavailable)
	default:
		answer := map[string]any{"key": use.Key.String(), "exp": use.Expires}
		if usedBy != (svid.ValidatorID{}) {
			answer["used_by"] = usedBy.String()
		}
		if e.Journal == nil && !e.Grouped && !e.Stored {
			answer["warning"] = forgets
		}
		w.Header().Set("Content-Type", "application/json")
		_ = json.NewEncoder(w).Encode(answer)
	}
}

// named is the token that a withdrawal names.
func (e *Engine) named(asked Withdrawal) (svid.TokenKey, uint64, error) {
	switch {
	case asked.Token != "" && asked.Key == "":
		use, err := e.Find(asked.Token)
		return use.Key, use.Expires, err
	case asked.Key != "" && asked.Token == "":
		key, err := svid.ParseTokenKey(asked.Key)
		return key, asked.Exp, err
	}
	return svid.TokenKey{}, 0, fmt.Errorf("name a token, or a key and its exp")
}
