package svid

// batchOf is the use as a message.
func batchOf(use Use) []byte { return batchesOf([]Use{use}) }

// batchesOf is the uses as messages.
func batchesOf(uses []Use) []byte {
	messages, err := Batches(uses)
	if err != nil {
		panic(err)
	}
	return messages
}
