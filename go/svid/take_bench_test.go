package svid_test

import (
	"fmt"
	"math/rand"
	"testing"

	"svid.example/go/v3/svid"
)

// BenchmarkTake takes uses as they come from a bucket: one a message, and several messages in a call.
func BenchmarkTake(b *testing.B) {
	for _, inOne := range []int{1, 16, 64, 256, 1024, 4096} {
		b.Run(fmt.Sprint(inOne), func(b *testing.B) {
			v := open(b, 1)
			random := rand.New(rand.NewSource(1))
			var messages []byte
			b.ResetTimer()
			for i := 0; i < b.N; i++ {
				u := svid.Use{Expires: moment + 1 + uint64(random.Intn(1000)), At: moment, ValidatorID: svid.ValidatorID{9}}
				random.Read(u.Key[:])
				if messages = append(messages, batchOf(u)...); len(messages) >= inOne*82 {
					if err := v.Take(moment, messages); err != nil {
						b.Fatal(err)
					}
					messages = messages[:0]
				}
			}
		})
	}
}

// BenchmarkRead reads the claims of others as they come from a bucket: so many in a value, each value in a call.
func BenchmarkRead(b *testing.B) {
	for _, inOne := range []int{1, 16, 64, 512} {
		b.Run(fmt.Sprint(inOne), func(b *testing.B) {
			v := open(b, 1)
			if err := v.OpenLog(svid.Log{Lasts: lasts}); err != nil {
				b.Fatal(err)
			}
			random := rand.New(rand.NewSource(1))
			var values [][]byte
			for n := 0; n < b.N; n += inOne {
				uses := make([]svid.Use, inOne)
				for i := range uses {
					uses[i] = svid.Use{Expires: moment + 1 + uint64(random.Intn(1000)), At: moment, ValidatorID: svid.ValidatorID{9}}
					random.Read(uses[i].Key[:])
				}
				values = append(values, batchesOf(uses))
			}
			out := make([]svid.LogUse, 64)
			b.ResetTimer()
			for i, value := range values {
				for rest := svid.RestNoRoom; rest != svid.RestNothing; {
					reading, err := v.Read(moment, uint64(i+1), value, 1, out)
					if err != nil {
						b.Fatal(err)
					}
					rest = reading.Rest
				}
			}
		})
	}
}
