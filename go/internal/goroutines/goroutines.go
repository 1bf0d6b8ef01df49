// Package goroutines finds where a source of Go starts a goroutine.
package goroutines

import (
	"go/ast"
	"go/parser"
	"go/token"
)

// Started gives each position where a file starts a goroutine by a statement, or runs a test beside others. What it calls in other packages
// may start more. The source is the text of the file, or nil where that is to be read.
func Started(name string, source any) ([]token.Position, error) {
	files := token.NewFileSet()
	file, err := parser.ParseFile(files, name, source, parser.SkipObjectResolution)
	if err != nil {
		return nil, err
	}
	var found []token.Position
	ast.Inspect(file, func(n ast.Node) bool {
		if starts(n) {
			found = append(found, files.Position(n.Pos()))
		}
		return true
	})
	return found, nil
}

func starts(n ast.Node) bool {
	switch n := n.(type) {
	case *ast.GoStmt:
		return true
	case *ast.CallExpr: // of testing.T and testing.B
		method, ok := n.Fun.(*ast.SelectorExpr)
		return ok && (method.Sel.Name == "Parallel" || method.Sel.Name == "RunParallel")
	}
	return false
}
