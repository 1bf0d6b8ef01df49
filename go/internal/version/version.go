// Package version has the version of this checkout.
package version

// Number is what the file VERSION says. tools/lists writes it.
const Number = "3.0.0"
