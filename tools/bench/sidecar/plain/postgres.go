package main

import (
	"database/sql"
	"time"

	_ "github.com/lib/pq" // speaks to the server
)

// A table remembers tokens in PostgreSQL: a row each, which is there once it is committed.
type table struct{ insert *sql.Stmt }

// newTable makes the table where it is not there, and keeps as many connections as requests come at once.
func newTable(url string) (*table, error) {
	db, err := sql.Open("postgres", url)
	if err != nil {
		return nil, err
	}
	db.SetMaxOpenConns(mostConnections)
	db.SetMaxIdleConns(mostConnections)
	if _, err := db.Exec("CREATE TABLE IF NOT EXISTS used (jti text PRIMARY KEY, exp timestamptz NOT NULL)"); err != nil {
		return nil, err
	}
	insert, err := db.Prepare("INSERT INTO used VALUES ($1, $2) ON CONFLICT DO NOTHING")
	return &table{insert}, err
}

// mostConnections are as many as a server of PostgreSQL takes, if nothing else is said to it.
const mostConnections = 90

// first adds a row for a token that has none, and says whether it did.
func (t *table) first(jti string, seconds int64) (bool, error) {
	done, err := t.insert.Exec(jti, time.Now().Add(time.Duration(seconds)*time.Second))
	if err != nil {
		return false, err
	}
	n, err := done.RowsAffected()
	return n == 1, err
}
