package svid_test

import (
	"encoding/json"
	"fmt"
	"strings"
	"testing"

	"svid.example/go/v3/internal/issuer"
	"svid.example/go/v3/svid"
)

// BenchmarkSignatures measures a signature of each algorithm: microseconds of a processor for a short token that a key made.
func BenchmarkSignatures(b *testing.B) {
	var set struct{ Keys []json.RawMessage }
	if err := json.Unmarshal(example.JWKSet(), &set); err != nil {
		b.Fatal(err)
	}
	for _, algorithm := range issuer.Algorithms {
		token := example.Token(algorithm, claims("measured"))
		end := strings.LastIndexByte(token, '.')
		signature := unBase64(b, token[end+1:])
		var key *svid.Key
		for _, jwk := range set.Keys {
			if k, err := svid.ParseKey(jwk); err != nil {
				b.Fatal(err)
			} else if k.Verify(algorithm, token[:end], signature) == nil {
				key = k
			}
		}
		if key == nil {
			b.Fatalf("no key made the signature of %s", algorithm)
		}
		for _, crowd := range []int{1, 64} {
			b.Run(fmt.Sprintf("%s/%d", algorithm, crowd), func(b *testing.B) {
				b.ReportAllocs()
				from := processorTime(b)
				if crowd == 1 {
					for i := 0; i < b.N; i++ {
						if err := key.Verify(algorithm, token[:end], signature); err != nil {
							b.Fatal(err)
						}
					}
				} else {
					b.SetParallelism(crowd)
					b.RunParallel(func(pb *testing.PB) {
						for pb.Next() {
							if err := key.Verify(algorithm, token[:end], signature); err != nil {
								b.Error(err)
							}
						}
					})
				}
				b.ReportMetric(float64((processorTime(b)-from).Nanoseconds())/1000/float64(b.N), "cpu-µs")
			})
		}
	}
}
