// The intake of a webhook relay as it is usually written in Go: net/http and SQLite. `scripts/bench http` measures it beside relayd.
//
// It takes events over HTTP and keeps them in the tables of docs/FORMATS.md. One goroutine commits the events that wait, up to 256
// in a transaction. A request gets its 202 only after the transaction with its event is on disk.
//
// Usage: relay FILE ADDRESS. FILE has the tables and the endpoints.
package main

import (
	"bytes"
	"crypto/rand"
	"database/sql"
	"encoding/json"
	"errors"
	"fmt"
	"io"
	"log"
	"net/http"
	"os"
	"regexp"
	"strings"
	"time"

	_ "github.com/mattn/go-sqlite3"
)

const (
	maxBatch = 256
	maxBody  = 65536
	settings = "?_journal_mode=WAL&_synchronous=FULL&_txlock=immediate"
)

var (
	idPattern   = regexp.MustCompile(`^[A-Za-z0-9_-]{1,64}$`)
	errConflict = errors.New("the id is known with another body")
)

// An event is in the queue until done is closed. Then seq is its number, or err says why it has none.
type event struct {
	endpoint int64
	id       string
	body     []byte
	seq      int64
	err      error
	done     chan struct{}
}

type store struct {
	db                  *sql.DB
	insert, find, count *sql.Stmt
	records             int64
	endpoints           map[string]int64
	queue               chan *event
}

func check(err error) {
	if err != nil {
		log.Fatal(err)
	}
}

func must[T any](value T, err error) T {
	check(err)
	return value
}

func openStore(file string) *store {
	db := must(sql.Open("sqlite3", "file:"+file+settings))
	db.SetMaxOpenConns(1)
	s := &store{
		db:        db,
		insert:    must(db.Prepare("INSERT INTO deliveries VALUES(?, ?, ?, ?, ?) ON CONFLICT(endpoint, id) DO NOTHING")),
		find:      must(db.Prepare("SELECT seq, body FROM deliveries WHERE endpoint = ? AND id = ?")),
		count:     must(db.Prepare("UPDATE meta SET records = ?")),
		endpoints: map[string]int64{},
		queue:     make(chan *event, maxBatch),
	}
	check(db.QueryRow("SELECT records FROM meta").Scan(&s.records))
	rows := must(db.Query("SELECT name, put FROM endpoints"))
	defer rows.Close()
	for rows.Next() {
		var name string
		var put int64
		check(rows.Scan(&name, &put))
		s.endpoints[name] = put
	}
	check(rows.Err())
	return s
}

// run commits what waits in the queue, a batch at a time.
func (s *store) run() {
	for first := range s.queue {
		batch := []*event{first}
		for len(batch) < maxBatch && len(s.queue) > 0 {
			batch = append(batch, <-s.queue)
		}
		err := s.commit(batch)
		if err != nil {
			log.Print(err)
		}
		for _, e := range batch {
			if err != nil {
				e.err = err
			}
			close(e.done)
		}
	}
}

func (s *store) commit(batch []*event) error {
	tx, err := s.db.Begin()
	if err != nil {
		return err
	}
	defer tx.Rollback()
	insert, find := tx.Stmt(s.insert), tx.Stmt(s.find)
	now, next := time.Now().Unix(), s.records
	for _, e := range batch {
		done, err := insert.Exec(next, e.endpoint, e.id, now, e.body)
		if err != nil {
			return err
		}
		if inserted, _ := done.RowsAffected(); inserted == 1 {
			e.seq = next
			next++
		} else if err := recognize(find, e); err != nil {
			return err
		}
	}
	if _, err := tx.Stmt(s.count).Exec(next); err != nil {
		return err
	}
	if err := tx.Commit(); err != nil {
		return err
	}
	s.records = next
	return nil
}

// recognize gives an event with a known id the number that the id has, if the body is the same.
func recognize(find *sql.Stmt, e *event) error {
	var body []byte
	if err := find.QueryRow(e.endpoint, e.id).Scan(&e.seq, &body); err != nil {
		return err
	}
	if !bytes.Equal(body, e.body) {
		e.err = errConflict
	}
	return nil
}

// submit serves POST /v1/endpoints/NAME/events.
func (s *store) submit(w http.ResponseWriter, r *http.Request) {
	name := strings.TrimSuffix(strings.TrimPrefix(r.URL.Path, "/v1/endpoints/"), "/events")
	if r.Method != http.MethodPost || r.URL.Path != "/v1/endpoints/"+name+"/events" {
		answer(w, http.StatusNotFound, refusal{"NotFound"})
		return
	}
	id := r.Header.Get("webhook-id")
	if id == "" {
		id = randomID()
	}
	endpoint, known := s.endpoints[name]
	body, err := io.ReadAll(http.MaxBytesReader(w, r.Body, maxBody))
	if err != nil {
		answer(w, http.StatusRequestEntityTooLarge, refusal{"TooLong"})
	} else if !idPattern.MatchString(id) {
		answer(w, http.StatusBadRequest, refusal{"BadId"})
	} else if !known {
		answer(w, http.StatusNotFound, refusal{"UnknownEndpoint"})
	} else {
		s.keep(w, &event{endpoint: endpoint, id: id, body: body, done: make(chan struct{})})
	}
}

// keep answers a request after its event is committed.
func (s *store) keep(w http.ResponseWriter, e *event) {
	s.queue <- e
	<-e.done
	if e.err == errConflict {
		answer(w, http.StatusConflict, refusal{"Conflict"})
	} else if e.err != nil {
		answer(w, http.StatusServiceUnavailable, refusal{"Unknown"})
	} else {
		answer(w, http.StatusAccepted, accepted{e.id, e.seq})
	}
}

type accepted struct {
	ID  string `json:"id"`
	Seq int64  `json:"seq"`
}

type refusal struct {
	Error string `json:"error"`
}

func answer(w http.ResponseWriter, status int, body any) {
	w.Header().Set("content-type", "application/json")
	w.WriteHeader(status)
	json.NewEncoder(w).Encode(body)
}

// randomID is msg_ and a UUID of version 4.
func randomID() string {
	b := make([]byte, 16)
	must(rand.Read(b))
	b[6], b[8] = b[6]&0x0f|0x40, b[8]&0x3f|0x80
	return fmt.Sprintf("msg_%x-%x-%x-%x-%x", b[:4], b[4:6], b[6:8], b[8:10], b[10:])
}

func main() {
	if len(os.Args) != 3 {
		log.Fatal("usage: relay FILE ADDRESS")
	}
	s := openStore(os.Args[1])
	go s.run()
	http.HandleFunc("/v1/endpoints/", s.submit)
	server := &http.Server{Addr: os.Args[2], ReadHeaderTimeout: 10 * time.Second, ReadTimeout: 30 * time.Second}
	log.Fatal(server.ListenAndServe())
}
