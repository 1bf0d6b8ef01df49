package dev

import (
	"embed"
	"encoding/json"
	"fmt"
	"io"
	"net/http"
	"strconv"
)

//go:embed page.html page.js page.css
var files embed.FS

// pages are the files of the page, with their types.
var pages = map[string][2]string{
	"/":         {"page.html", "text/html; charset=utf-8"},
	"/page.js":  {"page.js", "text/javascript; charset=utf-8"},
	"/page.css": {"page.css", "text/css; charset=utf-8"},
}

// mostAsked is how many bytes a question to the mint may have.
const mostAsked = 1 << 16

// Page answers on Options.Page: the page itself, what happens as a stream of events, the trust bundle, and the mint (POST /mint, with an Ask as
// JSON). A page of another site gets no answer: a browser names that site, or another host. ended ends the streams.
func (d *Desk) Page(ended <-chan struct{}) http.Handler {
	return Marked(http.HandlerFunc(func(w http.ResponseWriter, r *http.Request) {
		origin := r.Header.Get("Origin")
		file, isFile := pages[r.URL.Path]
		switch {
		case r.Host != d.Options.Page || origin != "" && origin != "http://"+d.Options.Page:
			http.Error(w, errNotHere.Error(), http.StatusForbidden)
		case r.URL.Path == "/mint" && r.Method == http.MethodPost:
			d.serveMint(w, r)
		case r.Method != http.MethodGet:
			http.Error(w, "only GET", http.StatusMethodNotAllowed)
		case isFile:
			w.Header().Set("Content-Type", file[1])
			w.Header().Set("Content-Security-Policy", "default-src 'none'; script-src 'self'; style-src 'self'; connect-src 'self'; frame-ancestors 'none'")
			text, _ := files.ReadFile(file[0]) // (it is within the program)
			_, _ = w.Write(text)
		case r.URL.Path == "/events":
			d.serveEvents(w, r, ended)
		default:
			http.NotFound(w, r)
		}
	}))
}

func (d *Desk) serveMint(w http.ResponseWriter, r *http.Request) {
	var asked Ask
	var given Given
	text, err := io.ReadAll(io.LimitReader(r.Body, mostAsked))
	if err == nil {
		err = json.Unmarshal(text, &asked)
	}
	if err == nil {
		given, err = d.Mint(asked)
	}
	w.Header().Set("Content-Type", "application/json")
	if err != nil {
		w.WriteHeader(http.StatusBadRequest)
		_ = json.NewEncoder(w).Encode(map[string]string{"error": err.Error(), "for": Mark})
		return
	}
	_ = json.NewEncoder(w).Encode(given)
}

// serveEvents sends what happened lately and what happens (HTML Living Standard, Server-sent events).
func (d *Desk) serveEvents(w http.ResponseWriter, r *http.Request, ended <-chan struct{}) {
	w.Header().Set("Content-Type", "text/event-stream")
	w.Header().Set("Cache-Control", "no-store")
	seen, _ := strconv.ParseUint(r.Header.Get("Last-Event-ID"), 10, 64) // (0 where a browser has seen none)
	for {
		these, came := d.after(seen)
		for _, it := range these {
			if _, err := fmt.Fprintf(w, "id: %d\ndata: %s\n\n", it.number, it.text); err != nil {
				return
			}
			seen = it.number
		}
		if f, ok := w.(http.Flusher); ok {
			f.Flush()
		}
		select {
		case <-came:
		case <-r.Context().Done():
			return
		case <-ended:
			return
		}
	}
}
