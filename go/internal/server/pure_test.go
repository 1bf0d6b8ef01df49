package server

import (
	"go/ast"
	"go/parser"
	syntax "go/token"
	"strconv"
	"testing"
)

// The machine has no goroutine, no lock, no clock and no chance: its files have no statement that begins or waits for another
// goroutine, and import nothing that would.
func TestTheMachineIsByItself(t *testing.T) {
	mayImport := map[string]bool{"context": true, "errors": true, "fmt": true, "io": true, "sort": true, "time": true,
		"svid.example/go/v3/carriers": true, "svid.example/go/v3/claims": true, "svid.example/go/v3/svid": true,
		"svid.example/go/v3/internal/clocks": true}
	mayUse := map[string]bool{"Duration": true, "Millisecond": true, "Second": true, "Minute": true} // of package time
	for _, name := range []string{"machine.go", "walk.go", "claims.go", "store.go", "record.go", "keeper.go", "withdraw.go", "rules.go", "seldom.go"} {
		files := syntax.NewFileSet()
		file, err := parser.ParseFile(files, name, nil, 0)
		if err != nil {
			t.Fatal(err)
		}
		for _, one := range file.Imports {
			if path, err := strconv.Unquote(one.Path.Value); err != nil || !mayImport[path] {
				t.Errorf("%s imports %s", name, one.Path.Value)
			}
		}
		ast.Inspect(file, func(n ast.Node) bool {
			switch n := n.(type) {
			case *ast.GoStmt, *ast.SelectStmt, *ast.SendStmt:
				t.Errorf("%v: the machine begins a goroutine, or waits for one", files.Position(n.Pos()))
			case *ast.UnaryExpr:
				if n.Op == syntax.ARROW {
					t.Errorf("%v: the machine waits", files.Position(n.Pos()))
				}
			case *ast.SelectorExpr:
				of, isName := n.X.(*ast.Ident)
				if isName && of.Name == "time" && !mayUse[n.Sel.Name] || isName && of.Name == "m" && n.Sel.Name == "Now" {
					t.Errorf("%v: the machine has a clock of its own: %s.%s", files.Position(n.Pos()), of.Name, n.Sel.Name)
				}
				if isName && of.Name == "clocks" && n.Sel.Name != "Moment" {
					t.Errorf("%v: the machine has a clock of its own: clocks.%s", files.Position(n.Pos()), n.Sel.Name)
				}
				if isName && of.Name == "context" && n.Sel.Name != "DeadlineExceeded" {
					t.Errorf("%v: the machine has a clock of its own: context.%s", files.Position(n.Pos()), n.Sel.Name)
				}
			}
			return true
		})
	}
}
