package server

import "svid.example/go/v3/svid"

// batchOf is the use as a message.
func batchOf(use svid.Use) []byte { return batchesOf([]svid.Use{use}) }

// batchesOf is the uses as messages.
func batchesOf(uses []svid.Use) []byte {
	messages, err := svid.Batches(uses)
	if err != nil {
		panic(err)
	}
	return messages
}
