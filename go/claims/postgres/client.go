package postgres

import (
	"context"
	"database/sql/driver"
	"errors"
	"fmt"
	"io"
	"net"
	"net/url"
	"strings"
	"time"

	"github.com/lib/pq"

	"svid.example/go/v3/internal/brief"
)

const (
	dialWait = 2 * time.Second // for a connection to be made
	// Each session keeps what it commits, sees what is committed, and hears warnings. What takes too long ends at the server too.
	begin = "SELECT set_config('synchronous_commit', CASE WHEN current_setting('synchronous_commit') = 'remote_apply' THEN 'remote_apply' ELSE 'on' END, false), " +
		"set_config('default_transaction_isolation', 'read committed', false), set_config('statement_timeout', '10s', false), " +
		"set_config('idle_in_transaction_session_timeout', '10s', false), set_config('client_min_messages', 'warning', false), " +
		"pg_backend_pid() || ' ' || (SELECT a.backend_start FROM pg_stat_activity AS a WHERE a.pid = pg_backend_pid())"
	// Ends sessions. A process may have the number that another one had, but not its start too.
	terminate = "SELECT pg_terminate_backend(a.pid) FROM pg_stat_activity AS a WHERE a.pid || ' ' || a.backend_start = ANY (string_to_array($1, ','))"
	// A notice that is no warning has a code of this class, in each language that a server speaks.
	classOfNotices = "00"
)

// check says whether a URL can be used. An error has no part of it that may be secret.
func check(text string) error {
	if !strings.HasPrefix(text, "postgres://") && !strings.HasPrefix(text, "postgresql://") {
		return errors.New("it is not like postgres://USER@HOST/DATABASE")
	}
	u, err := url.Parse(text)
	if err != nil {
		return errors.New("it is no URL, such as postgres://USER@HOST/DATABASE")
	}
	if strings.Contains(u.Host, ",") {
		return errors.New("it names several servers: give one address for each")
	}
	_, err = connector(text)
	return err
}

// connector reads a URL, and the environment: each time again.
func connector(text string) (c *pq.Connector, err error) {
	defer func() {
		if fault := recover(); fault != nil { // The library panics where the environment has what it can't use.
			err = fmt.Errorf("%v", fault)
		}
	}()
	u, err := url.Parse(text)
	if err != nil {
		return nil, errors.New("it is no URL")
	}
	query := u.Query()
	query.Set("binary_parameters", "yes") // A query takes one round, and bytes stay bytes.
	query.Del("disable_prepared_binary_result")
	query.Del("target_session_attrs") // The store looks for the primary by itself, and a server does not know this option.
	u.RawQuery = query.Encode()
	return pq.NewConnector(u.String())
}

// A dialer connects, and has the connection that it made last. What the library says and hears there at first ends with ctx, which the library does not see to.
type dialer struct {
	ctx  context.Context
	last net.Conn
	ends []func() // to be called once the library has connected, or failed
}

func (d *dialer) Dial(network, address string) (net.Conn, error) {
	return d.DialContext(context.Background(), network, address)
}

func (d *dialer) DialTimeout(network, address string, wait time.Duration) (net.Conn, error) {
	return d.DialContext(context.Background(), network, address)
}

func (d *dialer) DialContext(ctx context.Context, network, address string) (net.Conn, error) {
	by := net.Dialer{Timeout: dialWait}
	c, err := by.DialContext(ctx, network, address)
	if err == nil {
		d.last = c
		err = c.SetDeadline(time.Now().Add(dialWait)) // so that a server that hangs holds up nothing
		d.ends = append(d.ends, ending(d.ctx, c))
	}
	return c, err
}

// A conn is a connection. It is for one goroutine at a time, but close may come at any time.
type conn struct {
	raw      net.Conn
	db       driver.Conn
	warned   string // what the server has warned of in this query
	at       *server
	session  string // tells it from others at the server
	prepared map[string]driver.Stmt
}

// errWarned: a commit that did not wait for standbys, as it had to, is no error for the server.
type errWarned string

func (e errWarned) Error() string { return "the server warns: " + string(e) }

// dial connects.
func dial(ctx context.Context, url string) (*conn, error) {
	c, err := connector(url)
	if err != nil {
		return nil, err
	}
	ctx, cancel := context.WithTimeout(ctx, 2*dialWait)
	defer cancel()
	d := dialer{ctx: ctx}
	c.Dialer(&d)
	db, err := c.Connect(ctx)
	for _, end := range d.ends {
		end()
	}
	if err != nil {
		if d.last != nil {
			d.last.Close()
		}
		if ctx.Err() == context.Canceled {
			return nil, ctx.Err()
		}
		return nil, shortened(err)
	}
	one := &conn{raw: d.last, db: db, prepared: make(map[string]driver.Stmt)}
	pq.SetNoticeHandler(db, func(said *pq.Error) {
		if said.Code.Class() != classOfNotices {
			one.warned = brief.Text(said.Message, brief.Most)
		}
	})
	rows, err := one.query(ctx, begin)
	if err == nil && len(rows) != 1 {
		err = errAnswer
	}
	if err != nil {
		one.close()
		return nil, err
	}
	one.session = text(rows[0][len(rows[0])-1])
	return one, nil
}

func (c *conn) close() { c.raw.Close() }

// past is a deadline that is over.
var past = time.Unix(1, 0)

// within lets a query end with ctx. What it returns is to be called once the query has ended.
func (c *conn) within(ctx context.Context) (end func(), err error) {
	deadline, _ := ctx.Deadline() // (no deadline: none)
	if err := c.raw.SetDeadline(deadline); err != nil {
		return nil, err
	}
	if ctx.Done() == nil {
		return func() {}, nil
	}
	return ending(ctx, c.raw), nil
}

// ending lets what a connection waits for end with ctx, until the function is called that it returns.
func ending(ctx context.Context, c net.Conn) (end func()) {
	ended, watched := make(chan struct{}), make(chan struct{})
	go func() {
		defer close(watched)
		select {
		case <-ctx.Done():
			c.SetDeadline(past)
		case <-ended:
		}
	}()
	return func() { close(ended); <-watched }
}

// query returns the rows that a query answers. It ends soon after ctx. After an error that is no answer of the server the connection is
// of no use.
func (c *conn) query(ctx context.Context, text string, values ...driver.Value) ([][]driver.Value, error) {
	end, err := c.within(ctx)
	if err != nil {
		return nil, err
	}
	defer end()
	c.warned = ""
	found, err := c.db.(driver.QueryerContext).QueryContext(context.Background(), text, named(values))
	return c.rows(found, err)
}

// call is query by a statement that this connection keeps.
func (c *conn) call(ctx context.Context, text string, values ...driver.Value) ([][]driver.Value, error) {
	end, err := c.within(ctx)
	if err != nil {
		return nil, err
	}
	defer end()
	c.warned = ""
	statement := c.prepared[text]
	if statement == nil {
		if statement, err = c.db.Prepare(text); err != nil {
			return nil, err
		}
		c.prepared[text] = statement
	}
	found, err := statement.(driver.StmtQueryContext).QueryContext(context.Background(), named(values))
	return c.rows(found, err)
}

func named(values []driver.Value) []driver.NamedValue {
	all := make([]driver.NamedValue, len(values))
	for i, v := range values {
		all[i] = driver.NamedValue{Ordinal: i + 1, Value: v}
	}
	return all
}

// rows reads all rows: whether the server has committed is known behind them.
func (c *conn) rows(found driver.Rows, err error) ([][]driver.Value, error) {
	if err != nil {
		return nil, shortened(err)
	}
	defer found.Close()
	var rows [][]driver.Value
	for {
		row := make([]driver.Value, len(found.Columns()))
		err := found.Next(row)
		if err == io.EOF {
			if c.warned != "" {
				return nil, errWarned(c.warned)
			}
			return rows, nil
		}
		if err != nil {
			return nil, shortened(err)
		}
		for i, v := range row {
			if bytes, is := v.([]byte); is {
				row[i] = append([]byte(nil), bytes...)
			}
		}
		rows = append(rows, row)
	}
}

// shortened is an error whose message, where the server answered it, is not long.
func shortened(err error) error {
	var answered *pq.Error
	if errors.As(err, &answered) {
		answered.Message = brief.Text(answered.Message, brief.Most)
	}
	return err
}

// code is the code of an error that the server answered; "" for another one.
func code(err error) string {
	var answered *pq.Error
	if errors.As(err, &answered) {
		return string(answered.Code)
	}
	return ""
}
