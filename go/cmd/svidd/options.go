package main

import (
	"bytes"
	"encoding/json"
	"errors"
	"flag"
	"fmt"
	"io"
	"net"
	"net/url"
	"os"
	"path/filepath"
	"sort"
	"strconv"
	"strings"
	"time"

	"github.com/BurntSushi/toml"

	"svid.example/go/v3/bundles"
	"svid.example/go/v3/carriers/jetstream"
	"svid.example/go/v3/claims"
	"svid.example/go/v3/internal/regular"
	"svid.example/go/v3/internal/server"
	"svid.example/go/v3/svid"
	"svid.example/go/v3/workload"
)

// options are those of serve, and of verify, which has fewer.
type options struct {
	audiences, bundles, allow list
	bundleIDs, bundleCAs      list // of the servers of addresses: DOMAIN=ID, and DOMAIN=FILE
	bundleFolder              string
	workload                  string // the address of the Workload API
	longest, ahead            seconds
	rsaBits                   int

	listen, admin string
	metrics       string // "" where listen has /metrics too
	envoy         string // "" where Envoy does not ask by gRPC
	drain         period
	replay        string
	caller        string
	stores        list // addresses of the group's store
	logs          list // addresses of the log of a group of mode once
	nats          list
	files         jetstream.Files // for the NATS servers
	group         string
	replicas      int
	wait          period
	summaries     period
	state         string
	log           string
	logAddresses  string
	config        string
	check         bool
}

// addCommon adds the options that serve and verify share.
func (o *options) addCommon(f *flag.FlagSet) {
	f.Var(&o.audiences, "audience", "")
	f.Var(&o.bundles, "bundle", "")
	f.Var(&o.bundleIDs, "bundle-id", "")
	f.Var(&o.bundleCAs, "bundle-ca", "")
	f.StringVar(&o.bundleFolder, "bundles", "", "")
	f.StringVar(&o.workload, "workload-api", "", "")
	f.Var(&o.longest, "longest", "")
	f.IntVar(&o.rsaBits, "rsa-bits", 0, "")
	f.StringVar(&o.config, "config", "", "")
}

// flags are those of serve.
func (o *options) flags() *flag.FlagSet {
	return flagsOf("serve", func(f *flag.FlagSet) {
		o.addCommon(f)
		o.addServe(f)
	})
}

func (o *options) addServe(f *flag.FlagSet) {
	f.Var(&o.ahead, "ahead", "")
	f.Var(&o.allow, "allow", "")
	f.StringVar(&o.listen, "listen", "", "")
	f.StringVar(&o.metrics, "metrics", "", "")
	f.StringVar(&o.envoy, "envoy", "", "")
	f.Var(&o.drain, "drain", "")
	f.StringVar(&o.admin, "admin", "", "")
	f.StringVar(&o.replay, "replay", "", "")
	f.StringVar(&o.caller, "caller", "", "")
	f.Var(&o.stores, "store", "")
	f.Var(&o.logs, "group-log", "")
	f.Var(&o.nats, "nats", "")
	f.StringVar(&o.files.CA, "nats-ca", "", "")
	f.StringVar(&o.files.Cert, "nats-cert", "", "")
	f.StringVar(&o.files.Key, "nats-key", "", "")
	f.StringVar(&o.files.Creds, "nats-creds", "", "")
	f.StringVar(&o.group, "group", "", "")
	f.IntVar(&o.replicas, "replicas", 0, "")
	f.Var(&o.wait, "wait", "")
	f.Var(&o.summaries, "summaries", "")
	f.StringVar(&o.state, "state", "", "")
	f.StringVar(&o.log, "log", "", "")
	f.StringVar(&o.logAddresses, "log-addresses", "", "")
	f.BoolVar(&o.check, "check-config", false, "")
}

// parse reads the options of the command line, then those that are not given there
// from the environment (SVIDD_AUDIENCE, SVIDD_NATS, ..), then from the file of --config.
func parse(f *flag.FlagSet, config *string, args []string) error {
	if err := parseWords(f, args); err != nil {
		return err
	}
	given := make(map[string]bool)
	f.Visit(func(option *flag.Flag) { given[option.Name] = true })
	var all problems
	f.VisitAll(func(option *flag.Flag) {
		name := "SVIDD_" + strings.ToUpper(strings.ReplaceAll(option.Name, "-", "_"))
		text, ok := os.LookupEnv(name)
		if !ok || given[option.Name] {
			return
		}
		given[option.Name] = true
		if err := setAll(f, option, text); err != nil {
			all.wrong(true, "%s: %v", name, err)
		}
	})
	if *config != "" {
		all = append(all, parseFile(f, *config, given)...)
	}
	if len(all) > 0 {
		return all
	}
	return nil
}

// setAll sets an option from one text. Commas part the values of a list.
func setAll(f *flag.FlagSet, option *flag.Flag, text string) error {
	if _, ok := option.Value.(*list); !ok {
		return f.Set(option.Name, text)
	}
	for _, value := range strings.Split(text, ",") {
		if err := f.Set(option.Name, strings.TrimSpace(value)); err != nil {
			return err
		}
	}
	return nil
}

// parseFile sets what is not given yet from a file of options: TOML, or a JSON object. It says all that is wrong with the file.
func parseFile(f *flag.FlagSet, name string, given map[string]bool) (all problems) {
	members, err := readFile(name)
	if err != nil {
		return problems{err.Error()}
	}
	names := make([]string, 0, len(members))
	for option := range members {
		names = append(names, option)
	}
	sort.Strings(names)
	judges, ofServe := f.Lookup("audience") != nil, new(options).flags() // The other commands look for their own options: of a bad file a running sidecar can say what is wrong.
	for _, option := range names {
		known := f.Lookup(option)
		if known == nil && (!judges || ofServe.Lookup(option) != nil) {
			continue // verify has the same file as serve
		}
		if option == "config" || known == nil {
			all.wrong(true, "%s: no option is named %q%s", name, option, meant(f, option))
			continue
		}
		if err := setFrom(f, known, members[option], given[option]); err != nil {
			all.wrong(true, "%s: %s %v", name, option, err)
		}
	}
	return all
}

// setFrom sets an option from its value in a file, unless it is given already. The error goes on behind the option's name.
func setFrom(f *flag.FlagSet, option *flag.Flag, value any, isGiven bool) error {
	values, isList := value.([]any)
	if !isList {
		values = []any{value}
	} else if _, ok := option.Value.(*list); !ok {
		return errors.New("has one value, not a list")
	}
	if option.Name == "allow" && len(values) == 0 {
		return errors.New("is an empty list, by which all might call: say who may call, or leave it out to let all")
	}
	for _, v := range values {
		text, err := plain(option, v)
		if err != nil || isGiven {
			return err
		}
		if err := f.Set(option.Name, text); err != nil {
			return fmt.Errorf("= %q: %w", text, err)
		}
	}
	return nil
}

// readFile reads a file of options: JSON if it begins with a brace, and TOML if not.
func readFile(name string) (members map[string]any, err error) {
	text, err := regular.Read(name, mostConfig)
	if err != nil {
		return nil, err
	}
	if !bytes.HasPrefix(bytes.TrimSpace(text), []byte("{")) {
		if err := toml.Unmarshal(text, &members); err != nil {
			return nil, fmt.Errorf("%s: it is no TOML: %w", name, err)
		}
		return members, nil
	}
	decoder := json.NewDecoder(bytes.NewReader(text))
	decoder.UseNumber()
	if err := decoder.Decode(&members); err != nil {
		return nil, fmt.Errorf("%s: it is no JSON object: %w", name, err)
	}
	if _, err := decoder.Token(); err != io.EOF {
		return nil, fmt.Errorf("%s: something stands after the JSON object", name)
	}
	return members, nil
}

// plain is the text of a value, as the command line has it. The error says that the option has values of another type.
func plain(option *flag.Flag, value any) (string, error) {
	_, isText := value.(string)
	_, isTruth := value.(bool)
	_, isNumber := value.(int64)
	if !isNumber {
		_, isNumber = value.(json.Number)
	}
	due, fits := "text, in quotes", isText
	switch v := option.Value.(type) {
	case *period, *seconds:
		due, fits = `a time, as "1h", or a whole number of seconds`, isText || isNumber
	case flag.Getter:
		switch v.Get().(type) {
		case int:
			due, fits = "a whole number", isText || isNumber
		case bool:
			due, fits = "true or false", isText || isTruth
		}
	}
	if !fits {
		shown, err := json.Marshal(value)
		if err != nil {
			shown = []byte(fmt.Sprint(value)) // (a number that JSON does not have)
		}
		return "", fmt.Errorf("= %s: it is to be %s", shown, due)
	}
	return fmt.Sprint(value), nil
}

// problems are sentences that say what is wrong with options.
type problems []string

// wrong adds a sentence if something is so.
func (p *problems) wrong(is bool, text string, values ...any) {
	if is {
		*p = append(*p, fmt.Sprintf(text, values...))
	}
}

// Error has them in one line.
func (p problems) Error() string { return strings.Join(p, "; ") }

// tell prints them, each on a line.
func (p problems) tell(std stdio) int {
	for _, sentence := range p {
		fmt.Fprintf(std.err, "svidd: %s\n", hideTokens(sentence))
	}
	return exitFailed
}

// commonProblems is everything that is wrong with the options that serve and verify share.
func (o *options) commonProblems() (all problems) {
	all.wrong(len(o.audiences) == 0, "--audience is missing: the name by which tokens call this service")
	for _, a := range o.audiences {
		all.wrong(strings.ContainsAny(a, "\r\n"), "--audience %q holds a line break", a)
	}
	all.wrong(!o.hasBundles(), "--workload-api, --bundle or --bundles is missing: without trust bundles no token can be accepted")
	if _, err := o.specs(); err != nil {
		all.wrong(true, "--workload-api, --bundle, --bundles, --bundle-id, --bundle-ca: %v", err)
	}
	for _, text := range o.bundleIDs {
		_, id, _ := strings.Cut(text, "=")
		err := svid.CheckPattern(id)
		all.wrong(err != nil || strings.HasSuffix(id, "/*"), "--bundle-id: %q is no SPIFFE ID of a server: write DOMAIN=spiffe://DOMAIN/PATH", text)
	}
	if o.bundleFolder != "" {
		all.wrong(folderFault(o.bundleFolder) != nil, "--bundles: %v. Give a folder that has the trust bundles, each DOMAIN.json", folderFault(o.bundleFolder))
	}
	all.wrong(o.longest.given && (o.longest.value == 0 || o.longest.value > mostLongest), "--longest must be from 1 to %d seconds", uint64(mostLongest))
	all.wrong(o.rsaBits < leastRSABits || o.rsaBits > mostRSABits, "--rsa-bits must be from %d to %d", leastRSABits, mostRSABits)
	return all
}

// folderFault says why a folder can't be read. (To read what is none, such as a pipe, may take for ever.)
func folderFault(name string) error {
	info, err := os.Stat(name)
	if err == nil && !info.IsDir() {
		return fmt.Errorf("%s is no folder", name)
	}
	if err == nil {
		_, err = os.ReadDir(name)
	}
	return err
}

// problems is everything that is wrong with the options of serve.
func (o *options) problems() problems {
	all := o.commonProblems()
	wrong := all.wrong
	wrong(!o.longest.given, "--longest is missing: the record keeps each used token until it expires, so a token that lives for years fills the memory. Give the longest life in seconds that your issuer grants, such as 3600")
	for _, pattern := range o.allow {
		err := svid.CheckPattern(pattern)
		wrong(err != nil, "--allow: %v", err)
	}
	wrong(o.ahead.value > mostAhead, "--ahead must be at most %d seconds: so far a clock that is wrong can expire tokens", uint64(mostAhead))
	switch server.Mode(o.replay) {
	case server.Once:
		wrong(o.state == "", "--state is missing: in mode once the record is kept there, since a token that was accepted before a restart must not be accepted after it")
	case server.Strict:
		wrong(len(o.stores) == 0, "--store is missing: in mode strict each token is claimed in the group's store")
	case server.Bound:
		wrong(len(o.stores) == 0 && o.state == "", "--state is missing: in mode bound the state folder of a single sidecar has which caller used a token first. For a group give --store")
		wrong(o.caller == "", "--caller is missing: in mode bound a token is accepted from one caller. Say what names it: address:HEADER or header:NAME with a header that the proxy sets, or peer or principal where Envoy asks by gRPC")
	case server.Reuse:
	default:
		wrong(true, "--replay %q is none of once, strict, bound and reuse", o.replay)
	}
	o.callerProblems(&all)
	addressProblems(&all, "listen", o.listen, optionOf("serve", "listen").initial)
	if o.metrics != "" {
		addressProblems(&all, "metrics", o.metrics, "127.0.0.1:9902")
		wrong(isSame(o.metrics, o.listen), "--metrics is the address of --listen: give it one of its own, or leave it out")
	}
	if o.envoy != "" {
		addressProblems(&all, "envoy", o.envoy, "127.0.0.1:9903")
		wrong(isSame(o.envoy, o.listen) || isSame(o.envoy, o.metrics), "--envoy is the address of --listen or of --metrics: give it one of its own, since it answers gRPC alone")
	}
	wrong(len(o.admin) > mostSocket, "--admin: the path of a unix socket has at most %d bytes", mostSocket)
	for _, it := range [][2]string{{"listen", o.listen}, {"envoy", o.envoy}, {"metrics", o.metrics}} {
		wrong(o.admin != "" && isSame(it[1], "unix:"+o.admin), "--admin is the path of --%s: give it one of its own", it[0])
	}
	wrong(strings.HasPrefix(o.admin, "@"), "--admin %q is an abstract name, which every local process can reach: write a path", o.admin)
	o.groupProblems(&all)
	for i, server := range o.servers() {
		// (its text may hold a password)
		if !strings.Contains(server, "://") {
			server = "nats://" + server
		}
		u, err := url.Parse(server)
		good := err == nil && u.Host != "" && u.Hostname() != ""
		wrong(!good, "--nats: address %d is not like nats://HOST:PORT", i+1)
		wrong(good && !natsSchemes[u.Scheme], "--nats: address %d must begin with nats://, tls://, ws:// or wss://", i+1)
		wrong(good && !isPort(u.Port()), "--nats: address %d has a port that is none: write a number from 1 to 65535", i+1)
		wrong(good && (strings.Trim(u.Path, "/") != "" || u.RawQuery != ""), "--nats: address %d must end with its port: the group's name is --group", i+1)
	}
	wrong(!claims.ValidName(o.group), "--group %q can't name a group: use up to 64 letters, digits, - and _", o.group)
	wrong(o.replicas < 1 || o.replicas > jetstream.MostReplicas, "--replicas must be from 1 to %d: so many servers have each entry", jetstream.MostReplicas)
	if _, err := o.files.Connect(); err != nil {
		wrong(true, "--nats-ca, --nats-cert, --nats-key, --nats-creds: %v", err)
	}
	_, ok := logLevels[o.log]
	isURL := strings.Contains(o.log, "://") // which may hold a password
	wrong(isURL, "--log is the level of lines: errors, decisions or all. The address of a group's log is --group-log")
	wrong(!ok && !isURL, "--log %q is none of errors, decisions and all", o.log)
	_, ok = logAddresses[o.logAddresses]
	wrong(!ok, "--log-addresses %q is none of whole, network and none", o.logAddresses)
	wrong(o.wait == 0, "--wait must be greater than 0")
	wrong(o.summaries == 0, "--summaries must be greater than 0")
	wrong(time.Duration(o.drain) > mostDrain, "--drain must be from 0s to %v", mostDrain)
	return all
}

// callerProblems is what is wrong with --caller.
func (o *options) callerProblems(all *problems) {
	if o.caller == "" {
		return
	}
	mode := server.Mode(o.replay)
	all.wrong(mode != server.Bound && mode != server.Reuse, "--caller is for --replay bound and --replay reuse: in the other modes it does not count who presents a token")
	rule, err := server.ParseCaller(o.caller)
	all.wrong(err != nil, "--caller: %v", err)
	all.wrong(err == nil && rule.OfEnvoy() && o.envoy == "", "--caller %s: Envoy alone says that, by gRPC: give --envoy, or name a header that the proxy sets", o.caller)
}

// addressProblems is what is wrong with an address to answer on.
func addressProblems(all *problems, option, address, example string) {
	all.wrong(!isAddress(address), "--%s %q is no address: write HOST:PORT, such as %s, or unix:PATH", option, address, example)
	all.wrong(strings.HasPrefix(address, "unix:") && len(address) > len("unix:")+mostSocket, "--%s: the path of a unix socket has at most %d bytes", option, mostSocket)
}

const (
	mostLongest = 100 * 365 * 24 * 3600 // 100 years; keeps sums of times far from any limit
	mostAhead   = 24 * 3600
	mostConfig  = 1 << 20 // bytes of a file of options
	mostDrain   = time.Hour

	mostSocket = 107 // bytes of the path of a unix socket, as Linux has it

	leastRSABits = 2048 // as svid.KeyringOptions has it
	mostRSABits  = 16384
)

// isPort says whether a text is the number of a port, or none is given.
func isPort(text string) bool {
	n, err := strconv.ParseUint(text, 10, 16)
	return text == "" || err == nil && n > 0
}

var natsSchemes = map[string]bool{"nats": true, "tls": true, "ws": true, "wss": true}

// isAddress says whether bind can listen on an address, as far as its text says. An abstract name (@NAME, or nothing behind
// unix:) is none: no folder says who may reach it.
func isAddress(text string) bool {
	if path := strings.TrimPrefix(text, "unix:"); path != text {
		return path != "" && path[0] != '@'
	}
	_, port, err := net.SplitHostPort(text)
	if err == nil {
		_, err = net.LookupPort("tcp", port)
	}
	return err == nil && port != ""
}

// isSame says whether who listens on one address takes the other one too.
func isSame(one, other string) bool {
	first, second := strings.TrimPrefix(one, "unix:"), strings.TrimPrefix(other, "unix:")
	if first != one || second != other {
		return first != one && second != other && filepath.Clean(first) == filepath.Clean(second)
	}
	a, err1 := net.ResolveTCPAddr("tcp", one)
	b, err2 := net.ResolveTCPAddr("tcp", other)
	if err1 != nil || err2 != nil {
		return one == other // (that it is none is said elsewhere)
	}
	isAny := func(ip net.IP) bool { return len(ip) == 0 || ip.IsUnspecified() }
	return a.Port == b.Port && a.Port != 0 && (isAny(a.IP) || isAny(b.IP) || a.IP.Equal(b.IP))
}

var logAddresses = map[string]server.Addresses{"whole": server.Whole, "network": server.Network, "none": server.None}

var logLevels = map[string]server.Level{"errors": server.Errors, "decisions": server.Decisions, "all": server.All}

// servers are the NATS servers, each by itself.
func (o *options) servers() []string {
	var all []string
	given := o.nats
	if kind, _ := kindOf(o.logs); kind.name == "NATS" {
		given = append(given[:len(given):len(given)], o.logs...)
	}
	for _, urls := range given {
		for _, url := range strings.Split(urls, ",") {
			if url = strings.TrimSpace(url); url != "" {
				all = append(all, url)
			}
		}
	}
	return all
}

// specs are the sources of the trust bundles. Where no option names one, the environment may: it gives a workload the
// address of its Workload API.
func (o *options) specs() ([]bundles.Spec, error) {
	api := o.workload
	if api == "" && len(o.bundles) == 0 && o.bundleFolder == "" {
		api = os.Getenv(workload.EndpointSocket)
	}
	var others []bundles.Spec
	if api != "" {
		address, err := workload.ParseAddress(api)
		if err != nil {
			return nil, fmt.Errorf("bundles: the address of the Workload API, %q: %w", api, err)
		}
		others = append(others, bundles.WorkloadAPI(api, address))
	}
	specs, err := bundles.ParseSpecs(o.bundles, o.bundleFolder, others...)
	if err != nil {
		return nil, err
	}
	return bundles.ParseEndpoints(specs, o.bundleIDs, o.bundleCAs)
}

// hasBundles says whether there is a source of trust bundles.
func (o *options) hasBundles() bool {
	specs, err := o.specs()
	return err != nil || len(specs) > 0
}
