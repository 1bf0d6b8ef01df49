package journal

import (
	"bytes"
	"fmt"
	"math/rand"
	"sort"
	"strings"
	"syscall"
	"testing"
)

// Each call on each state, as the definitions of crates/svid_journal/specs/Disk.antt have it. A file is written
// `seen/kept`, and a name `now of [all that it may be]`.
func TestTheModelOfADisk(t *testing.T) {
	file := func(seen, kept string, flags ...string) *fileOnDisk {
		f := &fileOnDisk{seen: []byte(seen), kept: []byte(kept)}
		for _, flag := range flags {
			f.whole, f.spoiled = f.whole || flag == "whole", f.spoiled || flag == "spoiled"
		}
		return f
	}
	write := func(at int, landed string) func(*fileOnDisk) {
		return func(f *fileOnDisk) { f.written(at, []byte(landed)) }
	}
	force := func(ok bool) func(*fileOnDisk) { return func(f *fileOnDisk) { f.forced(ok) } }
	for _, row := range []struct {
		definition string
		from       *fileOnDisk
		call       func(*fileOnDisk)
		want       string
	}{
		// written at landed f = { take at seen ++ landed ++ drop (at + length landed) seen; take at kept; false; spoiled }
		{"written", file("", ""), write(0, "ab"), "ab/"},
		{"written", file("abcd", "abcd", "whole"), write(4, "ef"), "abcdef/abcd"},
		{"written", file("abcd", "abcd", "whole"), write(2, "x"), "abxd/ab"},
		{"written", file("abcd", "abcd", "whole"), write(1, "xyz!"), "axyz!/a"},
		{"written", file("abcd", "ab"), write(3, "x"), "abcx/ab"},
		{"written", file("abcd", "ab"), write(1, "x"), "axcd/a"},
		{"written", file("abcd", "abcd", "whole"), write(2, ""), "abcd/ab"},
		{"written", file("ab", "ab", "whole", "spoiled"), write(2, "c"), "abc/ab spoiled"},
		{"written", file("ab", "ab", "whole"), write(5, "c"), "abc/ab"},
		// forced true f = if spoiled then f else { seen; seen; true; false }
		{"forced true", file("abcd", "ab"), force(true), "abcd/abcd whole"},
		{"forced true", file("", ""), force(true), "/ whole"},
		{"forced true", file("abcd", "ab", "spoiled"), force(true), "abcd/ab spoiled"},
		{"forced true", file("ab", "ab", "whole", "spoiled"), force(true), "ab/ab whole spoiled"},
		// forced false f = { seen; kept; whole; true }
		{"forced false", file("abcd", "ab"), force(false), "abcd/ab spoiled"},
		{"forced false", file("ab", "ab", "whole"), force(false), "ab/ab whole spoiled"},
	} {
		before := row.from.String()
		if row.call(row.from); row.from.String() != row.want {
			t.Errorf("%s, of %s: %s, want %s", row.definition, before, row.from, row.want)
		}
	}

	leads := func(to bool) func(*nameOf[bool]) { return func(n *nameOf[bool]) { n.leads(to) } }
	named := func(ok bool) func(*nameOf[bool]) { return func(n *nameOf[bool]) { n.named(ok) } }
	name := func(now bool, may ...bool) nameOf[bool] { return nameOf[bool]{now: now, may: may} }
	stuck := nameOf[bool]{now: true, may: []bool{false, true}, stuck: true}
	for _, row := range []struct {
		definition string
		from       nameOf[bool]
		call       func(*nameOf[bool])
		want       string
	}{
		// leads a name = { a; may ++ [a]; false }
		{"leads", name(false, false), leads(true), "true of [false true]"},
		{"leads", name(true, false, true), leads(false), "false of [false true false]"},
		{"leads", name(true, true), leads(true), "true of [true true]"},
		{"leads", stuck, leads(false), "false of [false true false]"},
		// named true name = if stuck then name else settled now
		{"named true", name(true, false, true), named(true), "true of [true]"},
		{"named true", name(false, false, true, false), named(true), "false of [false]"},
		{"named true", stuck, named(true), "true of [false true] stuck"},
		// named false name = { now; may; stuck || not (is_sure may) }
		{"named false", name(true, true), named(false), "true of [true]"},
		{"named false", name(true, false, true), named(false), "true of [false true] stuck"},
		{"named false", stuck, named(false), "true of [false true] stuck"},
		{"named false", name(true, true, true), named(false), "true of [true true] stuck"},
	} {
		before := row.from.String()
		if row.call(&row.from); row.from.String() != row.want {
			t.Errorf("%s, of %s: %s, want %s", row.definition, before, row.from, row.want)
		}
	}

	// The calls on a whole disk: journals 1 and 2, a snapshot, and a file beside.
	const from = "1: ab/ab whole, true of [true]; 2: cd/c, true of [false true]; 3: /, false of [false]; snapshot: old/old whole of [old/old whole]; beside: new/n; " +
		"id: none of [none]; id beside: id/i; folder: true of [false true]"
	fault := syscall.EIO
	for _, row := range []struct {
		definition string
		call       func(d *disk) error
		fails      error
		landed     int
		want       string
	}{
		{"create_journal 3", func(d *disk) error { _, err := d.create("journal.3"); return err }, nil, 0,
			strings.Replace(from, "3: /, false of [false]", "3: /, true of [false true]", 1)},
		{"create_journal 1", func(d *disk) error { _, err := d.create("journal.1"); return err }, nil, 0,
			strings.Replace(from, "1: ab/ab whole, true of [true]", "1: /, true of [true true]", 1)},
		{"create_journal that fails", func(d *disk) error { _, err := d.create("journal.3"); return err }, fault, 0, from},
		{"write_journal 2 2 ef", func(d *disk) error { _, err := d.opened("journal.2").WriteAt([]byte("ef"), 2); return err }, nil, 0,
			strings.Replace(from, "cd/c", "cdef/c", 1)},
		{"write_journal 1 2 e, of ef", func(d *disk) error { _, err := d.opened("journal.1").WriteAt([]byte("ef"), 2); return err }, fault, 1,
			strings.Replace(from, "ab/ab whole", "abe/ab", 1)},
		{"sync_journal 2 true", func(d *disk) error { return d.opened("journal.2").datasync() }, nil, 0,
			strings.Replace(from, "cd/c", "cd/cd whole", 1)},
		{"sync_journal 2 false", func(d *disk) error { return d.opened("journal.2").datasync() }, fault, 0,
			strings.Replace(from, "cd/c", "cd/c spoiled", 1)},
		{"remove_journal 1", func(d *disk) error { return d.remove("journal.1") }, nil, 0,
			strings.Replace(from, "true of [true]", "false of [true false]", 1)},
		{"remove_journal that fails", func(d *disk) error { return d.remove("journal.1") }, fault, 0, from},
		// (the first piece makes the file again)
		{"write_piece 0 0 x", func(d *disk) error {
			f, err := d.create("snapshot.new")
			if err == nil {
				_, err = f.WriteAt([]byte("x"), 0)
			}
			return err
		}, nil, 0, strings.Replace(from, "new/n", "x/", 1)},
		{"write_piece 1 3 x", func(d *disk) error { _, err := d.opened("snapshot.new").WriteAt([]byte("x"), 3); return err }, nil, 0,
			strings.Replace(from, "new/n", "newx/n", 1)},
		{"sync_beside true", func(d *disk) error { return d.opened("snapshot.new").sync() }, nil, 0,
			strings.Replace(from, "new/n", "new/new whole", 1)},
		{"sync_beside false", func(d *disk) error { return d.opened("snapshot.new").sync() }, fault, 0,
			strings.Replace(from, "new/n", "new/n spoiled", 1)},
		{"rename_beside", func(d *disk) error { return d.rename("snapshot.new", "snapshot") }, nil, 0,
			strings.Replace(from, "snapshot: old/old whole of [old/old whole]", "snapshot: new/n of [old/old whole new/n]", 1)},
		{"rename_beside that fails", func(d *disk) error { return d.rename("snapshot.new", "snapshot") }, fault, 0, from},
		{"sync_folder true", func(d *disk) error { return d.sync() }, nil, 0,
			strings.Replace(from, "[false true]", "[true]", 1)},
		{"sync_folder false", func(d *disk) error { return d.sync() }, fault, 0,
			strings.Replace(from, "[false true]", "[false true] stuck", 1)},
		{"write_id xy", func(d *disk) error {
			f, err := d.create("place.new")
			if err == nil {
				_, err = f.WriteAt([]byte("xy"), 0)
			}
			return err
		}, nil, 0, strings.Replace(from, "id/i", "xy/", 1)},
		{"sync_id true", func(d *disk) error { return d.opened("place.new").sync() }, nil, 0, strings.Replace(from, "id/i", "id/id whole", 1)},
		{"sync_id false", func(d *disk) error { return d.opened("place.new").sync() }, fault, 0, strings.Replace(from, "id/i", "id/i spoiled", 1)},
		{"rename_id", func(d *disk) error { return d.rename("place.new", "place") }, nil, 0,
			strings.Replace(from, "id: none of [none]", "id: id/i of [none id/i]", 1)},
		{"rename_id that fails", func(d *disk) error { return d.rename("place.new", "place") }, fault, 0, from},
		{"sync_folder true, of a new id", func(d *disk) error { d.id.leads(d.idBeside); return d.sync() }, nil, 0,
			strings.NewReplacer("none of [none]", "id/i of [id/i]", "2: cd/c, true of [false true]", "2: cd/c, true of [true]").Replace(from)},
		{"sync_folder false, of a new id", func(d *disk) error { d.id.leads(d.idBeside); return d.sync() }, fault, 0,
			strings.NewReplacer("none of [none]", "id/i of [none id/i] stuck", "2: cd/c, true of [false true]", "2: cd/c, true of [false true] stuck").Replace(from)},
		{"the folder is removed", func(d *disk) error { return d.rmdir() }, nil, 0, from[:len(from)-len("true of [false true]")] + "false of [false true false]"},
		{"the folder is not removed", func(d *disk) error { return d.rmdir() }, fault, 0, from},
		{"the folder is made anew", func(d *disk) error { d.here.leads(false); return d.mkdir() }, nil, 0,
			from[:len(from)-len("[false true]")] + "[false true false true]"},
		{"the folder is there", func(d *disk) error { return d.mkdir() }, syscall.EEXIST, 0, from},
		{"sync of the folder above", func(d *disk) error { return d.syncAbove() }, nil, 0, from[:len(from)-len("[false true]")] + "[true]"},
		{"sync of the folder above that fails", func(d *disk) error { return d.syncAbove() }, fault, 0, from + " stuck"},
	} {
		d := newDisk()
		*d.journal(1) = journalOnDisk{file("ab", "ab", "whole"), name(true, true)}
		*d.journal(2) = journalOnDisk{file("cd", "c"), name(true, false, true)}
		*d.journal(3) = journalOnDisk{file("", ""), name(false, false)}
		d.snapshot, d.beside = settled(file("old", "old", "whole")), file("new", "n")
		d.here, d.idBeside = name(true, false, true), file("id", "i")
		if got := d.text(); got != from {
			t.Fatal(got)
		}
		d.before = func(string, string, int) (int, error) { return row.landed, row.fails }
		if err := row.call(d); (err != nil) != (row.fails != nil) {
			t.Errorf("%s: %v", row.definition, err)
		}
		if got := d.text(); got != row.want {
			t.Errorf("%s: %s, want %s", row.definition, got, row.want)
		}
	}
}

// opened is a file of the disk that is open.
func (d *disk) opened(name string) file {
	f := &openFile{disk: d, name: name, file: d.beside}
	if name == "place.new" {
		f.file = d.idBeside
	}
	if n, is := numberOf(name); is {
		f.file = d.journal(n).file
	}
	return f
}

// text is the whole disk.
func (d *disk) text() string {
	var all []string
	var numbers []uint64
	for n := range d.journals {
		numbers = append(numbers, n)
	}
	sort.Slice(numbers, func(i, k int) bool { return numbers[i] < numbers[k] })
	for _, n := range numbers {
		all = append(all, fmt.Sprintf("%d: %v, %v", n, d.journals[n].file, d.journals[n].here))
	}
	return strings.Join(append(all, fmt.Sprintf("snapshot: %v", d.snapshot), fmt.Sprintf("beside: %v", d.beside),
		fmt.Sprintf("id: %v", d.id), fmt.Sprintf("id beside: %v", d.idBeside), fmt.Sprintf("folder: %v", d.here)), "; ")
}

// MayLeave of the definitions: a file that is whole leaves its front alone, and another one any bytes that begin with it. A
// crash of the model leaves nothing else, and each name that it may.
func TestACrashOfTheModelLeavesWhatItMay(t *testing.T) {
	r := rand.New(rand.NewSource(1))
	names, behind := map[string]bool{}, map[bool]int{}
	for i := 0; i < 3000; i++ {
		d := newDisk()
		d.here = settled(true)
		f, err := d.create("journal.1")
		if err != nil {
			t.Fatal(err)
		}
		kept, more := make([]byte, 8*r.Intn(16)), make([]byte, 8*r.Intn(16))
		r.Read(kept)
		r.Read(more)
		f.WriteAt(kept, 0)
		f.datasync()
		whole := r.Intn(2) == 0
		if !whole {
			f.WriteAt(more, int64(len(kept)))
		}
		d.snapshot.leads(atRest([]byte("one")))
		after := d.crash(r)
		got := after.journals[1].file
		if !bytes.HasPrefix(got.seen, kept) || whole && len(got.seen) != len(kept) || !got.whole || !bytes.Equal(got.seen, got.kept) {
			t.Fatalf("of %x and %x there is %v", kept, more, got)
		}
		behind[whole] += len(got.seen) - len(kept)
		names[fmt.Sprint(after.journals[1].here, after.snapshot)] = true
	}
	if len(names) != 4 || behind[true] != 0 || behind[false] == 0 {
		t.Error(names, behind)
	}
}
