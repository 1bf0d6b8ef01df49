package svid_test

import (
	"errors"
	"fmt"
	"testing"
	"time"

	"svid.example/go/v3/svid"
)

// all is what a member knows that judges tokens.
var all = svid.Known{Bundled: true, Loaded: true, Opened: true, Heard: true, Joined: true, CaughtUp: true}

// life is that of all members of these tests.
var life = svid.Life{7}

// A desk is a validator with a member, for tests.
type desk struct {
	*svid.Validator
	t       testing.TB
	keyring *svid.Keyring
	up      time.Duration
}

func openDesk(t testing.TB, mode svid.MemberMode, disk bool) *desk {
	t.Helper()
	d := &desk{open(t, 1), t, keyring(t, example.Bundles()), time.Hour}
	terms := svid.MemberTerms{Mode: mode, Disk: disk, Store: true, Log: true, Wait: time.Second, Ahead: 5, Lasts: longest + 5, Life: life}
	if err := d.OpenMember(terms); err != nil {
		t.Fatal(err)
	}
	if err := d.Know(all); err != nil {
		t.Fatal(err)
	}
	return d
}

// come lets a request come, and returns its number.
func (d *desk) come() uint64 {
	d.t.Helper()
	deed, err := d.Come(d.up)
	if err != nil || deed.Kind != svid.DeedJudge {
		d.t.Fatal(deed, err)
	}
	return deed.Number
}

// read is a token whose signature was verified.
func (d *desk) read(text string) *svid.Token {
	d.t.Helper()
	token := svid.NewToken(text)
	d.t.Cleanup(token.Close)
	if _, err := d.keyring.VerifyToken(&token); err != nil {
		var refusal svid.Refusal
		if !errors.As(err, &refusal) {
			d.t.Fatal(err)
		}
	}
	return &token
}

// asks lets a request come with a token, and judges that.
func (d *desk) asks(token *svid.Token) (uint64, svid.Accepted, svid.Deed, error) {
	d.t.Helper()
	number := d.come()
	accepted, deed, err := d.JudgeRequest(moment, d.up, number, token)
	return number, accepted, deed, err
}

// want wants a deed.
func (d *desk) want(got svid.Deed, err error, kind svid.DeedKind, number uint64, why error) {
	d.t.Helper()
	if err != nil || got.Kind != kind || kind != svid.DeedNothing && got.Number != number || got.Err != why {
		d.t.Errorf("%+v %v, and not %v of %d with %v", got, err, kind, number, why)
	}
}

// In mode once a use is on the disk before the answer, and the token is used from its judgment on.
func TestAMemberOfModeOnce(t *testing.T) {
	d := openDesk(t, svid.MemberOnce, true)
	one := d.read(example.Token("ES256", claims("a")))
	first, accepted, deed, err := d.asks(one)
	d.want(deed, err, svid.DeedAppend, first, nil)
	if accepted.ID != "spiffe://example.org/web" || deed.Used != accepted.Use || accepted.Use.Expires != moment+300 {
		t.Errorf("%+v %+v", accepted, deed)
	}
	second, _, deed, err := d.asks(one)
	if err != svid.Replayed {
		t.Error(err)
	}
	d.want(deed, nil, svid.DeedAnswer, second, svid.Replayed)
	deed, err = d.Wrote(d.up, first, true)
	d.want(deed, err, svid.DeedAnswer, first, nil)
	if deed.Used != accepted.Use || deed.Next != svid.NoRequest {
		t.Errorf("%+v", deed)
	}
	other, _, _, _ := d.asks(d.read(example.Token("ES256", claims("b"))))
	deed, err = d.Wrote(d.up, other, false)
	d.want(deed, err, svid.DeedAnswer, other, svid.ErrNotKept)
	if err := d.Ready(); err != svid.UnreadyKeepsNothing {
		t.Errorf("after a write that failed: %v", err)
	}
	deed, err = d.Wrote(d.up, other, true)
	d.want(deed, err, svid.DeedNothing, 0, nil)
	if err := d.Ready(); err != nil {
		t.Errorf("once it is there after all: %v", err)
	}
	last, _, _, _ := d.asks(d.read(example.Token("ES256", claims("c"))))
	deed, err = d.Leave(d.up, last)
	d.want(deed, err, svid.DeedNothing, 0, nil)
	deed, err = d.Wrote(d.up+time.Second, last, true)
	d.want(deed, err, svid.DeedAnswer, last, svid.ErrLate)

	// Without a disk the answer comes at once.
	d = openDesk(t, svid.MemberOnce, false)
	number, _, deed, err := d.asks(one)
	d.want(deed, err, svid.DeedAnswer, number, nil)
}

// In mode strict one request claims a token, and the others wait for what becomes of that.
func TestAMemberOfModeStrict(t *testing.T) {
	d := openDesk(t, svid.MemberStrict, true)
	one := d.read(example.Token("ES256", claims("a")))
	first, accepted, deed, err := d.asks(one)
	d.want(deed, err, svid.DeedClaim, first, nil)
	used := accepted.Use
	own := svid.OwnerOfLife(svid.ValidatorID{1}, life, used.Expires)
	second, _, deed, err := d.asks(one)
	d.want(deed, err, svid.DeedNothing, 0, nil)
	third, _, deed, err := d.asks(one)
	d.want(deed, err, svid.DeedNothing, 0, nil)
	deed, err = d.Send(d.up, first)
	d.want(deed, err, svid.DeedClaim, first, nil)
	if deed.Used != used {
		t.Errorf("%+v", deed)
	}
	deed, err = d.Send(d.up, second)
	d.want(deed, err, svid.DeedNothing, 0, nil)
	if _, deed, err = d.Found(moment, d.up, second, [32]byte{}, svid.Found{Owner: own, Time: moment}, one); err != svid.ErrUnasked || deed.Kind != svid.DeedNothing {
		t.Errorf("one that waits: %+v %v", deed, err)
	}
	accepted, deed, err = d.Found(moment, d.up, first, [32]byte{}, svid.Found{Owner: own, Time: moment}, one)
	d.want(deed, err, svid.DeedAnswer, first, nil)
	if accepted.ID != "spiffe://example.org/web" || accepted.Use.Key != used.Key || deed.Used != accepted.Use || deed.Next != second {
		t.Errorf("%+v %+v", accepted, deed)
	}
	for number, next := range map[uint64]uint64{second: third} {
		_, deed, err = d.JudgeRequest(moment, d.up, number, one)
		if err != svid.Replayed || deed.Next != next {
			t.Errorf("%+v %v", deed, err)
		}
		d.want(deed, nil, svid.DeedAnswer, number, svid.Replayed)
	}
}

// The answer to a claim by what the store has.
func TestWhatAStoreAnswersToAMember(t *testing.T) {
	for name, row := range map[string]struct {
		found svid.Found // an owner of 1 is the own one
		want  error
	}{
		"own":       {svid.Found{Owner: svid.Owner{1}, Time: moment}, nil},
		"another's": {svid.Found{Owner: svid.Owner{2}, Time: moment}, svid.Replayed},
		"withdrawn": {svid.Found{Time: moment}, svid.Withdrawn},
		"far":       {svid.Found{Owner: svid.Owner{1}, Time: moment - longest}, svid.ErrClaimFar},
		"deaf":      {svid.Found{Owner: svid.Owner{1}, Time: moment, Deaf: moment + 300}, svid.ErrClaimDeaf},
		"not deaf":  {svid.Found{Owner: svid.Owner{1}, Time: moment, Deaf: moment + 299}, nil},
		"expired":   {svid.Found{Owner: svid.Owner{1}, Time: moment + 305}, svid.Expired},
		"not yet":   {svid.Found{Owner: svid.Owner{1}, Time: moment + 304}, nil},
	} {
		d := openDesk(t, svid.MemberStrict, true)
		one := d.read(example.Token("ES256", claims(name)))
		number, accepted, _, err := d.asks(one)
		if err != nil {
			t.Fatal(name, err)
		}
		if row.found.Owner == (svid.Owner{1}) {
			row.found.Owner = svid.OwnerOfLife(svid.ValidatorID{1}, life, accepted.Use.Expires)
		}
		_, deed, err := d.Found(moment, d.up, number, [32]byte{}, row.found, one)
		if err != row.want {
			t.Errorf("%s: %v, want %v", name, err, row.want)
		}
		d.want(deed, nil, svid.DeedAnswer, number, row.want)
		if _, err = d.JudgeToken(moment, one); name == "withdrawn" && err != svid.Withdrawn || row.want == nil && err != svid.Replayed {
			t.Errorf("%s: from then on: %v", name, err)
		}
	}
}

// In mode bound a token is accepted again and again, from one caller alone. In mode reuse from all.
func TestMembersThatAcceptATokenAgain(t *testing.T) {
	d := openDesk(t, svid.MemberBound, false)
	one := d.read(example.Token("ES256", claims("a")))
	owner := svid.OwnerOfCaller([32]byte{1}, moment+300)
	for caller, want := range map[byte]error{1: nil, 2: svid.Replayed} {
		for range [2]int{} {
			number, _, deed, err := d.asks(one)
			d.want(deed, err, svid.DeedClaim, number, nil)
			_, deed, err = d.Found(moment, d.up, number, [32]byte{caller}, svid.Found{Owner: owner, Time: moment}, one)
			if d.want(deed, nil, svid.DeedAnswer, number, want); err != want {
				t.Errorf("caller %d: %v", caller, err)
			}
		}
	}
	d = openDesk(t, svid.MemberReuse, false)
	for range [2]int{} {
		number, accepted, deed, err := d.asks(one)
		if d.want(deed, err, svid.DeedAnswer, number, nil); deed.Used != accepted.Use {
			t.Errorf("%+v %+v", deed, accepted)
		}
	}
}

// Where no deed comes of a judgment, nothing happened.
func TestWhatAMemberDoesNotJudge(t *testing.T) {
	d := openDesk(t, svid.MemberOnce, false)
	one := d.read(example.Token("ES256", claims("a")))
	number := d.come()
	for name, row := range map[string]struct {
		now    uint64
		number uint64
		text   string
		want   error
	}{
		"no token":        {moment, number, "a.b", svid.NotThreeParts},
		"no request":      {moment, number + 1, "", svid.ErrUnasked},
		"a time far away": {moment + 100_000, number, "", svid.ErrJump},
	} {
		token := one
		if row.text != "" {
			token = d.read(row.text)
		}
		if name == "a time far away" { // (The first moment of a record is never a jump.)
			if err := d.Tick(moment); err != nil {
				t.Fatal(err)
			}
		}
		if _, deed, err := d.JudgeRequest(row.now, d.up, row.number, token); err != row.want || deed != (svid.Deed{}) {
			t.Errorf("%s: %+v %v", name, deed, err)
		}
		if _, deed, err := d.Found(row.now, d.up, row.number, [32]byte{}, svid.Found{}, token); deed != (svid.Deed{}) || err == nil {
			t.Errorf("%s: an answer to a claim: %+v %v", name, deed, err)
		}
	}
	_, deed, err := d.JudgeRequest(moment, d.up+time.Second, number, one)
	if err != svid.ErrUnasked || deed != (svid.Deed{}) {
		t.Errorf("too late: %+v %v", deed, err)
	}
	deed, err = d.Overdue(d.up + time.Second)
	d.want(deed, err, svid.DeedAnswer, number, svid.ErrLate)
	if _, err := d.CheckToken(moment, one); err != nil {
		t.Errorf("its token is used up: %v", err)
	}
}

// Requests are answered at their time, in the order in which they came.
func TestWhatIsDue(t *testing.T) {
	d := openDesk(t, svid.MemberStrict, false)
	if at, any, err := d.Due(); any || err != nil {
		t.Errorf("%v %v", at, err)
	}
	first := d.come()
	d.up += time.Millisecond
	second := d.come()
	want := func(want time.Duration) {
		t.Helper()
		if at, any, err := d.Due(); at != want || !any || err != nil {
			t.Errorf("due at %v, and not at %v: %v", at, want, err)
		}
	}
	want(time.Hour + time.Second)
	deed, err := d.Overdue(time.Hour + time.Second - 1)
	d.want(deed, err, svid.DeedNothing, 0, nil)
	deed, err = d.Overdue(time.Hour + time.Second)
	d.want(deed, err, svid.DeedAnswer, first, svid.ErrLate)
	want(time.Hour + time.Millisecond + time.Second)
	deed, err = d.Leave(d.up, second)
	d.want(deed, err, svid.DeedAnswer, second, svid.ErrLeft)
	made, any, err := d.WithdrawalCome(2 * time.Hour)
	if err != nil || !any {
		t.Fatal(made, err)
	}
	want(2*time.Hour + time.Second)
}

// What a member knows decides if it judges tokens, and if some are to be sent to it: the first reason counts.
func TestWhatAMemberKnows(t *testing.T) {
	for mode, rows := range map[svid.MemberMode][]struct {
		change func(k *svid.Known)
		judges error
		ready  error
	}{
		svid.MemberOnce: {
			{func(k *svid.Known) { k.Away, k.Deaf = true, true }, nil, nil},
			{func(k *svid.Known) { k.Full = true }, nil, svid.UnreadyKeepsNothing},
			{func(k *svid.Known) { k.Jumped = true }, nil, svid.UnreadyJumped},
			{func(k *svid.Known) { k.Draining = true }, nil, svid.UnreadyDraining},
			{func(k *svid.Known) { k.CaughtUp = false }, svid.UnreadyGroupUnread, svid.UnreadyGroupUnread},
			{func(k *svid.Known) { k.Joined = false }, svid.UnreadyBrokerUnreached, svid.UnreadyBrokerUnreached},
			{func(k *svid.Known) { k.Heard = false }, svid.UnreadyWithdrawalsUnread, svid.UnreadyWithdrawalsUnread},
			{func(k *svid.Known) { k.Opened = false }, svid.UnreadyStoreUnreached, svid.UnreadyStoreUnreached},
			{func(k *svid.Known) { k.Loaded = false }, svid.UnreadyLoading, svid.UnreadyLoading},
			{func(k *svid.Known) { k.Bundled = false }, svid.UnreadyNoBundle, svid.UnreadyNoBundle},
			{func(k *svid.Known) { k.Ended = true }, svid.UnreadyEnded, svid.UnreadyEnded},
		},
		svid.MemberStrict: {
			{func(k *svid.Known) { k.Heard, k.Full = false, true }, nil, nil},
			{func(k *svid.Known) { k.Deaf = true }, nil, svid.UnreadyDeaf},
			{func(k *svid.Known) { k.Away = true }, nil, svid.UnreadyStoreAway},
		},
	} {
		d, known := openDesk(t, mode, true), all
		for i, row := range rows { // (each reason counts before those of the rows above it)
			row.change(&known)
			if err := d.Know(known); err != nil {
				t.Fatal(err)
			}
			if err := d.Judges(); err != row.judges {
				t.Errorf("mode %d, %d: %v, want %v", mode, i, err, row.judges)
			}
			if err := d.Ready(); err != row.ready {
				t.Errorf("mode %d, %d: ready: %v, want %v", mode, i, err, row.ready)
			}
			if deed, err := d.Come(d.up); err != row.judges || (deed.Kind == svid.DeedJudge) != (err == nil) {
				t.Errorf("mode %d, %d: a request: %+v %v", mode, i, deed, err)
			}
		}
	}
}

// Audiences and callers are replaced at once, and the record stays. So do callers where the audiences alone are replaced.
func TestRulesOfAMember(t *testing.T) {
	d := openDesk(t, svid.MemberOnce, false)
	token := func(audience, who string) *svid.Token {
		return d.read(example.Token("ES256", map[string]any{"sub": "spiffe://example.org/" + who, "aud": audience, "exp": moment + 300, "jti": fmt.Sprint(audience, who)}))
	}
	want := func(what string, one *svid.Token, want error) {
		t.Helper()
		number, _, deed, err := d.asks(one)
		if d.want(deed, nil, svid.DeedAnswer, number, want); err != want {
			t.Errorf("%s: %v, want %v", what, err, want)
		}
	}
	used := token("ledger", "web")
	want("at first", used, nil)
	edition := d.Edition()
	for _, wrong := range []struct{ audiences, allow []string }{{[]string{"a\nb"}, nil}, {[]string{"other"}, []string{"nobody"}}, {[]string{"other"}, []string{"spiffe://a\nspiffe://b"}}, {[]string{"\xff"}, nil}} {
		if err := d.SetRules(wrong.audiences, wrong.allow); err == nil || d.Edition() != edition {
			t.Errorf("%q count", wrong)
		}
	}
	late := d.come()
	if err := d.SetRules([]string{"other"}, []string{"spiffe://example.org/job", "spiffe://example.org/cron/*"}); err != nil {
		t.Fatal(err)
	}
	if _, _, err := d.JudgeRequest(moment, d.up, late, token("ledger", "job")); err != svid.NotAudience {
		t.Errorf("a request that came before: %v", err)
	}
	want("another audience", token("ledger", "job"), svid.NotAudience)
	want("who may not call", token("other", "web"), svid.ErrNotAllowed)
	want("who may call", token("other", "job"), nil)
	if err := d.SetAudiences([]string{"ledger"}); err != nil {
		t.Fatal(err)
	}
	want("who may not call still", token("ledger", "web"), svid.Replayed)
	want("who may not call still", token("ledger", "guest"), svid.ErrNotAllowed)
	if err := d.SetRules([]string{"ledger"}, []string{}); err != nil {
		t.Fatal(err)
	}
	want("an empty list", token("ledger", "job"), svid.ErrNotAllowed)
	if err := d.SetRules([]string{"ledger"}, nil); err != nil {
		t.Fatal(err)
	}
	want("a list for all", token("ledger", "guest"), nil)
	want("the token of before", used, svid.Replayed)
	if size, err := d.Size(); err != nil || size.Uses != 3 {
		t.Errorf("%+v %v", size, err)
	}
}

// A withdrawal ends when each keeper has said whether it has it, or when its time is over.
func TestWithdrawalsOfAMember(t *testing.T) {
	d := openDesk(t, svid.MemberOnce, false) // (no disk)
	number, any, err := d.WithdrawalCome(d.up)
	if err != nil || !any {
		t.Fatal(err)
	}
	for _, keeper := range []svid.Keeper{svid.KeeperDisk, svid.KeeperStore, svid.KeeperStore} {
		if made, ended, err := d.WithdrawalTold(number, keeper, true); ended || err != nil {
			t.Errorf("%+v %v", made, err)
		}
	}
	made, ended, err := d.WithdrawalTold(number, svid.KeeperLog, false)
	if want := (svid.Reached{Number: number, Disk: true, Store: true}); made != want || !ended || err != nil {
		t.Errorf("%+v %v", made, err)
	}
	if made, ended, err := d.WithdrawalTold(number, svid.KeeperLog, true); ended || err != nil {
		t.Errorf("one that has ended: %+v %v", made, err)
	}
	if number, _, err = d.WithdrawalCome(d.up); err != nil {
		t.Fatal(err)
	}
	if _, _, err := d.WithdrawalTold(number, svid.KeeperLog, true); err != nil {
		t.Fatal(err)
	}
	if made, ended, err := d.WithdrawalOverdue(d.up + time.Second - 1); ended || err != nil {
		t.Errorf("%+v %v", made, err)
	}
	made, ended, err = d.WithdrawalOverdue(d.up + time.Second)
	if want := (svid.Reached{Number: number, Disk: true, Log: true}); made != want || !ended || err != nil {
		t.Errorf("%+v %v", made, err)
	}
	if _, ended, err := d.WithdrawalOverdue(d.up + time.Hour); ended || err != nil {
		t.Error(err)
	}
}

// Calls on a validator without a member, with one already, or that is closed.
func TestCallsWithoutAMember(t *testing.T) {
	v := open(t, 1)
	token := svid.NewToken(example.Token("ES256", claims("a")))
	defer token.Close()
	if err := v.OpenMember(svid.MemberTerms{Mode: 4}); err != svid.ErrNoMode {
		t.Error(err)
	}
	want := func(want error) {
		t.Helper()
		_, come := v.Come(1)
		_, _, judge := v.JudgeRequest(moment, 1, 0, &token)
		_, _, found := v.Found(moment, 1, 0, [32]byte{}, svid.Found{}, &token)
		_, wrote := v.Wrote(1, 0, true)
		_, send := v.Send(1, 0)
		_, leave := v.Leave(1, 0)
		_, overdue := v.Overdue(1)
		_, _, due := v.Due()
		_, _, w1 := v.WithdrawalCome(1)
		_, _, w2 := v.WithdrawalTold(0, svid.KeeperLog, true)
		_, _, w3 := v.WithdrawalOverdue(1)
		for i, err := range []error{v.Know(all), v.Judges(), v.Ready(), come, judge, found, wrote, send, leave, overdue, due, w1, w2, w3, v.SetRules(nil, nil)} {
			if err != want {
				t.Errorf("call %d: %v, want %v", i, err, want)
			}
		}
	}
	want(svid.ErrNoMember)
	if err := v.OpenMember(svid.MemberTerms{Mode: svid.MemberReuse}); err != nil {
		t.Fatal(err)
	}
	if err := v.OpenMember(svid.MemberTerms{Mode: svid.MemberReuse}); err != svid.ErrIsOpen {
		t.Error(err)
	}
	if err := v.Judges(); err != svid.UnreadyNoBundle {
		t.Errorf("before it knows anything: %v", err)
	}
	v.Close()
	want(svid.ErrClosed)
	if err := v.OpenMember(svid.MemberTerms{}); err != svid.ErrClosed {
		t.Error(err)
	}
	reads := open(t, 2)
	if err := reads.OpenLog(svid.Log{}); err != nil {
		t.Fatal(err)
	}
	if err := reads.OpenMember(svid.MemberTerms{}); err != svid.ErrHasLog {
		t.Error(err)
	}
}

// A request takes no memory of Go but for the SPIFFE ID that it is answered with.
func TestARequestTakesNoMemory(t *testing.T) {
	d := openDesk(t, svid.MemberReuse, false)
	one := d.read(example.Token("ES256", claims("a")))
	if n := testing.AllocsPerRun(100, func() {
		number := d.come()
		if _, _, err := d.JudgeRequest(moment, d.up, number, one); err != nil {
			t.Fatal(err)
		}
		_, _ = d.Wrote(d.up, number, true)
		_, _ = d.Send(d.up, number)
		_, _ = d.Leave(d.up, number)
		_, _ = d.Overdue(d.up)
		_, _, _ = d.Due()
	}); n > 1 {
		t.Errorf("%v blocks a request", n)
	}
}

// Claims share calls, and go out at the library's pace.
func TestPacing(t *testing.T) {
	const ms = time.Millisecond
	p := svid.NewPacing()
	if p.Calls() != 0 || p.MaySend(time.Hour, 0) || !p.MaySend(time.Hour, 1) {
		t.Error("at first")
	}
	p.Sent(time.Hour)
	if at, any := p.Due(); at != time.Hour+20*ms || !any || p.Calls() != 1 {
		t.Errorf("due at %v", at)
	}
	for waiting, want := range map[int]bool{31: false, 32: true} {
		if p.MaySend(time.Hour+20*ms-1, waiting) != want {
			t.Errorf("%d wait: %v", waiting, !want)
		}
	}
	if !p.MaySend(time.Hour+20*ms, 1) {
		t.Error("when it is due")
	}
	for n := 1; n < 64; n++ {
		p.Sent(time.Hour)
	}
	if at, any := p.Due(); any || p.MaySend(2*time.Hour, 100) || p.Calls() != 64 {
		t.Errorf("a call beside 64 others is due at %v", at)
	}
	for _, want := range []time.Duration{10, 20, 40, 80, 160, 250, 250} {
		if pause := p.Unanswered(); pause != want*ms {
			t.Errorf("a pause of %v, and not of %v", pause, want*ms)
		}
	}
	if pause := p.Answered(); pause != 10*ms || p.Calls() != 56 {
		t.Errorf("after an answer %v, and %d calls", pause, p.Calls())
	}
}
