package main

import (
	"flag"
	"fmt"
	"io"
	"strings"
)

// An option is a row of lists/svidd.toml.
type option struct {
	name     string
	commands string // that have it, with blanks between them
	initial  string // its value where it is not given
	usage    string // what --help says of it
}

// lists:begin options (written by tools/lists from lists/svidd.toml)

// usage is what help prints.
const usage = `usage:
  svidd serve    --audience NAME.. BUNDLES --longest TIME [OPTION..]
  svidd verify   --audience NAME.. BUNDLES [--longest TIME] [--rsa-bits BITS] < TOKEN
  svidd withdraw --admin PATH (- < TOKEN | --key HEX --exp SECONDS | TOKEN)
  svidd report   --admin PATH [--json]
  svidd reload   --admin PATH
  svidd ready    [--listen ADDRESS]
  svidd check-state DIR [--messages]
  svidd schema   --longest TIME [--ahead TIME] [--group NAME] [--role ROLE]
  svidd dev      [--replay MODE] [--audience NAME] [--domain NAME] [--keys DIR] [OPTION..]
  svidd mint     [--subject ID] [--audience NAME..] [--life TIME] [--jti TEXT] [--fault NAME] [--try]
  svidd version

BUNDLES: --workload-api ADDRESS, --bundle DOMAIN=FILE.., --bundle DOMAIN=https://.. or --bundles DIR

'svidd COMMAND --help' lists the options of a command.
`

// listed are the options of all commands.
var listed = []option{
	{"audience", "serve verify", "", "`NAME` by which tokens may call the service; may be repeated"},
	{"workload-api", "serve verify", "", "`ADDRESS` of the SPIFFE Workload API that gives the trust bundles, as unix:///run/spire/agent.sock;\nSPIFFE_ENDPOINT_SOCKET counts where no bundles are given"},
	{"allow", "serve", "", "`PATTERN` of callers: an ID, spiffe://DOMAIN/PATH/* for all below a path, or spiffe://DOMAIN; may be repeated"},
	{"bundle", "serve verify", "", "trust bundle `DOMAIN=FILE` (JWK set, as spire-server bundle show -format spiffe prints it)\nor DOMAIN=https://..; may be repeated"},
	{"bundle-id", "serve verify", "", "SPIFFE ID of the server at the address of a bundle, as `DOMAIN=ID`: it must show an X.509-SVID of that;\nmay be repeated"},
	{"bundle-ca", "serve verify", "", "authorities of the server at the address of a bundle, as `DOMAIN=FILE`: PEM, or with --bundle-id a trust bundle;\nmay be repeated"},
	{"bundles", "serve verify", "", "folder `DIR` of trust bundles, each DOMAIN.json"},
	{"longest", "serve verify", "", "the most `TIME` that a token may have to live, as 1h"},
	{"rsa-bits", "serve verify", "4096", "the most `BITS` that an RSA key may have, 2048 to 16384"},
	{"ahead", "serve", "30s", "the most `TIME` that clocks of the group may differ"},
	{"replay", "serve", "once", "`MODE`: once, strict, bound or reuse"},
	{"caller", "serve", "", "`WHO` presents a token, for --replay bound and reuse: address:HEADER, header:NAME, peer or principal;\nbehind an address /24,64 makes a network one caller"},
	{"listen", "serve", "127.0.0.1:9901", "`ADDRESS` to answer /check on: HOST:PORT or unix:PATH"},
	{"envoy", "serve", "", "`ADDRESS` to answer Envoy's ext_authz by gRPC on: HOST:PORT or unix:PATH; none without"},
	{"metrics", "serve", "", "`ADDRESS` to answer /metrics, /healthz and /readyz on, and nothing else; without it, that of --listen does"},
	{"drain", "serve", "", "`TIME` to go on answering after SIGTERM, while /readyz says draining"},
	{"admin", "serve", "", "unix socket `PATH` for withdraw, report and reload; none without"},
	{"state", "serve", "", "folder `DIR` where the record is kept"},
	{"log", "serve", "decisions", "`LEVEL`: errors, decisions or all"},
	{"log-addresses", "serve", "whole", "`HOW` lines have the addresses of clients: whole, network (24 bits of IPv4, 48 of IPv6) or none"},
	{"store", "serve", "", "`URL` of the group's store: redis://HOST:PORT, postgres://USER@HOST/DATABASE or nats://HOST:PORT;\nmay be repeated for several servers of one store"},
	{"group-log", "serve", "", "`URL` of the log by which sidecars of mode once tell each other of their uses: nats://HOST:PORT;\nmay be repeated for several servers of one log"},
	{"nats", "serve", "", "the same as --group-log `URL`, also for several servers with commas"},
	{"group", "serve", "svid", "`NAME` of the group's store and log"},
	{"replicas", "serve", "1", "`NUMBER` of servers that must have an entry of the store; for NATS, if its stream must be made"},
	{"nats-ca", "serve", "", "`FILE` of the authorities (PEM) of the NATS servers' certificates; the system's without"},
	{"nats-cert", "serve", "", "`FILE` of this sidecar's certificate (PEM) for the NATS servers, such as an X.509-SVID"},
	{"nats-key", "serve", "", "`FILE` of its key (PEM)"},
	{"nats-creds", "serve", "", "`FILE` of a NATS user's credentials, as nsc writes it"},
	{"wait", "serve", "2s", "the longest `TIME` that one request waits for the store, or for the disk"},
	{"summaries", "serve", "5m", "`TIME` between two repairs by summaries"},
	{"config", "serve verify withdraw report reload ready", "", "`FILE` of options, as TOML (audience = [\"ledger\"]) or as a JSON object"},
	{"check-config", "serve", "", "say what is wrong with the options, and start nothing"},
	{"admin", "withdraw report reload", "", "unix socket `PATH` of the sidecar"},
	{"key", "withdraw", "", "the token's key as 64 `HEX` digits, as the log and the report have it"},
	{"exp", "withdraw", "", "when the token of --key expires, in `SECONDS` since 1970"},
	{"json", "report", "", "print one JSON object"},
	{"listen", "ready", "127.0.0.1:9901", "`ADDRESS` of the sidecar: HOST:PORT or unix:PATH"},
	{"messages", "check-state", "", "write the messages of the folder to standard output, for svid report"},
	{"longest", "schema", "", "the most `TIME` that a token may have to live, as 1h"},
	{"ahead", "schema", "30s", "the most `TIME` that clocks of the group may differ"},
	{"group", "schema", "svid", "`NAME` of the group's store"},
	{"role", "schema", "", "`ROLE` that is to have the rights of a member"},
	{"domain", "dev", "example.org", "`NAME` of the trust domain"},
	{"subject", "dev", "", "SPIFFE `ID` of a token for which nobody names another one; spiffe://DOMAIN/billing/api without"},
	{"audience", "dev", "ledger", "`NAME` by which tokens may call the service"},
	{"life", "dev", "5m", "the longest `TIME` that a token lives, and the usual one"},
	{"rotate", "dev", "10m", "`TIME` between two changes of the key that signs"},
	{"replay", "dev", "bound", "`MODE`: once, strict, bound or reuse; the store of strict is in memory"},
	{"caller", "dev", "", "`WHO` presents a token, for bound and reuse: address:HEADER or header:NAME; the address of the connection without"},
	{"keys", "dev", "", "folder `DIR` of mode 0700 that keeps the keys; without it they are in memory"},
	{"listen", "dev", "127.0.0.1:9901", "`ADDRESS` to answer /check on: 127.0.0.1:PORT"},
	{"page", "dev", "127.0.0.1:9900", "`ADDRESS` of the page and of the mint: 127.0.0.1:PORT"},
	{"endpoint", "dev", "127.0.0.1:9904", "`ADDRESS` of the bundle endpoint, over https: 127.0.0.1:PORT"},
	{"dev", "mint", "127.0.0.1:9900", "`ADDRESS` of the page of svidd dev"},
	{"subject", "mint", "", "SPIFFE `ID` of the token; that of svidd dev without"},
	{"audience", "mint", "", "`NAME` of the service that the token is for; may be repeated; that of svidd dev without"},
	{"life", "mint", "", "`TIME` that the token lives; that of svidd dev without"},
	{"jti", "mint", "", "`TEXT` of the claim jti; random without, and none writes no jti, as SPIRE does"},
	{"fault", "mint", "", "`NAME` of what is wrong with the token: expired, not-yet, other-audience, bad-signature or unknown-key"},
	{"try", "mint", "", "do not print the token: send it to svidd dev twice from 127.0.0.1, and once from 127.0.0.2, and print the answers"},
}

// lists:end

// optionOf is the option that a command has under this name.
func optionOf(command, name string) option {
	for _, it := range listed {
		if it.name == name && strings.Contains(" "+it.commands+" ", " "+command+" ") {
			return it
		}
	}
	panic(fmt.Sprintf("lists/svidd.toml has no option --%s of %s", name, command))
}

// flagsOf are the options of a command that add makes, each with what the list says of it, and its default.
func flagsOf(command string, add func(f *flag.FlagSet)) *flag.FlagSet {
	f := flag.NewFlagSet("svidd "+command, flag.ContinueOnError)
	f.SetOutput(io.Discard) // (what it would print, parseWords says)
	f.Usage = func() {}
	add(f)
	f.VisitAll(func(made *flag.Flag) {
		it := optionOf(command, made.Name)
		made.Usage = it.usage
		if it.initial == "" {
			return
		}
		if err := made.Value.Set(it.initial); err != nil {
			panic(fmt.Sprintf("lists/svidd.toml: the default of --%s of %s: %v", made.Name, command, err))
		}
		made.DefValue = made.Value.String()
	})
	return f
}
