module svid.example/go/v3

go 1.19

require (
	github.com/BurntSushi/toml v1.2.0
	github.com/gomodule/redigo v1.8.3
	github.com/lib/pq v1.10.7
	github.com/nats-io/nats.go v1.22.1
	github.com/nats-io/nkeys v0.3.0
	golang.org/x/net v0.7.0
	google.golang.org/protobuf v1.28.1
)

require (
	github.com/nats-io/nuid v1.0.1 // indirect
	golang.org/x/crypto v0.4.0 // indirect
	golang.org/x/text v0.7.0 // indirect
)
