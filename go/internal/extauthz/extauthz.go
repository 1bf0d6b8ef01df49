// Package extauthz reads and writes the messages of Envoy's external authorization over gRPC, service
// envoy.service.auth.v3.Authorization: what a check of a bearer token needs of them.
//
// It reads and writes protobuf by package protowire. The field numbers are those of Envoy's
// public API.
package extauthz

import (
	"fmt"
	"strings"
	"unicode/utf8"

	"svid.example/go/v3/internal/protowire"
)

// Path is where a client of gRPC makes the call.
const Path = "/envoy.service.auth.v3.Authorization/Check"

// The numbers of fields.
const (
	checkAttributes   = 1 // CheckRequest: AttributeContext
	attributesSource  = 1 // AttributeContext: Peer
	peerAddress       = 1 // AttributeContext.Peer: Address
	peerPrincipal     = 4
	addressSocket     = 1 // Address: SocketAddress
	socketAddress     = 2 // SocketAddress: its IP address
	attributesRequest = 4 // AttributeContext: Request
	requestHTTP       = 2 // AttributeContext.Request: HttpRequest
	httpHeaders       = 3 // HttpRequest: map<string, string>
	entryKey          = 1
	entryValue        = 2

	responseStatus = 1 // CheckResponse: google.rpc.Status
	responseDenied = 2 // CheckResponse: DeniedHttpResponse
	responseOK     = 3 // CheckResponse: OkHttpResponse
	statusCode     = 1
	statusMessage  = 2
	deniedStatus   = 1 // DeniedHttpResponse: HttpStatus
	deniedHeaders  = 2
	deniedBody     = 3
	okHeaders      = 2
	okRemove       = 5 // OkHttpResponse: headers_to_remove
	httpStatusCode = 1
	optionHeader   = 1 // HeaderValueOption: HeaderValue
	optionAppend   = 3 // HeaderValueOption: append_action
	headerKey      = 1
	headerValue    = 2

	overwrite = 2 // OVERWRITE_IF_EXISTS_OR_ADD: what a client sent under the same name is gone
)

// Headers are the header fields of the request that Envoy asks about, by their names in small letters. A name has more than one
// value where it stands in the message more than once.
type Headers map[string][]string

// ReadHeaders reads a CheckRequest: those header fields of it that are wanted, by their names in small letters. A message without
// them has none; an error says that it is no CheckRequest.
func ReadHeaders(message []byte, wanted ...string) (Headers, error) {
	found := Headers{}
	err := each(message, checkAttributes, func(attributes []byte) error {
		return each(attributes, attributesRequest, func(request []byte) error {
			return each(request, requestHTTP, func(http []byte) error {
				return each(http, httpHeaders, func(entry []byte) error { return found.add(entry, wanted) })
			})
		})
	})
	if err != nil {
		return nil, err
	}
	return found, nil
}

// A Source is the client of the request, as Envoy sees it. No header says so.
type Source struct {
	Address   string // of the connection to Envoy; "" for one by a unix socket
	Principal string // of the client's certificate: its first URI; "" where it showed none
}

// ReadSource reads who the client of a CheckRequest is. A field that stands there more than once counts as it stands last.
func ReadSource(message []byte) (s Source, err error) {
	err = each(message, checkAttributes, func(attributes []byte) error {
		return each(attributes, attributesSource, func(peer []byte) error {
			if err := each(peer, peerPrincipal, text(&s.Principal)); err != nil {
				return err
			}
			return each(peer, peerAddress, func(address []byte) error {
				return each(address, addressSocket, func(socket []byte) error { return each(socket, socketAddress, text(&s.Address)) })
			})
		})
	})
	if err != nil {
		return Source{}, err
	}
	return s, nil
}

// text reads a field that is a text.
func text(into *string) func(value []byte) error {
	return func(value []byte) error {
		if !utf8.Valid(value) {
			return fmt.Errorf("a field is not UTF-8")
		}
		*into = string(value)
		return nil
	}
}

// add reads an entry of the map. A field that stands there more than once counts as it stands last, as protobuf has it.
func (h Headers) add(entry []byte, wanted []string) error {
	var key, value string
	for number, field := range map[protowire.Number]*string{entryKey: &key, entryValue: &value} {
		if err := each(entry, number, text(field)); err != nil {
			return err
		}
	}
	key = strings.ToLower(key)
	for _, name := range wanted {
		if name == key {
			h[key] = append(h[key], value)
		}
	}
	return nil
}

// each calls do with the value of each field of this number, which must be bytes. It passes over all others.
func each(message []byte, wanted protowire.Number, do func(value []byte) error) error {
	return protowire.Each(message, func(number protowire.Number, kind protowire.Type, value []byte) error {
		switch {
		case number != wanted:
			return nil
		case kind != protowire.BytesType:
			return fmt.Errorf("field %d is of another type", number)
		}
		return do(value)
	})
}

// A Field is a header field: a name and its value.
type Field struct{ Name, Value string }

// Accepted is the CheckResponse that lets a request through. It gets these header fields, which replace what the client sent under
// their names, and loses those that are named in remove.
func Accepted(fields []Field, remove ...string) []byte {
	var ok []byte
	for _, f := range fields {
		ok = protowire.AppendField(ok, okHeaders, option(f))
	}
	for _, name := range remove {
		ok = protowire.AppendField(ok, okRemove, []byte(name))
	}
	message := protowire.AppendField(nil, responseStatus, nil) // (code 0 is not written)
	return protowire.AppendField(message, responseOK, ok)
}

// Denied is the CheckResponse that answers a request with this HTTP status, these header fields and this body. The code is one of
// gRPC other than OK.
func Denied(code int, why string, status int, fields []Field, body string) []byte {
	denied := protowire.AppendField(nil, deniedStatus, appendNumber(nil, httpStatusCode, status))
	for _, f := range fields {
		denied = protowire.AppendField(denied, deniedHeaders, option(f))
	}
	denied = protowire.AppendField(denied, deniedBody, []byte(body))
	said := protowire.AppendField(appendNumber(nil, statusCode, code), statusMessage, []byte(why))
	return protowire.AppendField(protowire.AppendField(nil, responseStatus, said), responseDenied, denied)
}

// option is a HeaderValueOption.
func option(f Field) []byte {
	header := protowire.AppendField(protowire.AppendField(nil, headerKey, []byte(f.Name)), headerValue, []byte(f.Value))
	return appendNumber(protowire.AppendField(nil, optionHeader, header), optionAppend, overwrite)
}

func appendNumber(to []byte, number protowire.Number, value int) []byte {
	return protowire.AppendVarint(protowire.AppendTag(to, number, protowire.VarintType), uint64(value))
}
