package main

import (
	"bytes"
	"context"
	"crypto/ecdsa"
	"crypto/elliptic"
	"crypto/rand"
	"crypto/tls"
	"crypto/x509"
	"crypto/x509/pkix"
	"encoding/pem"
	"fmt"
	"io"
	"math/big"
	"net"
	"net/http"
	"os"
	"path/filepath"
	"strings"
	"syscall"
	"testing"
	"time"

	kotskhin "kotskhin.example/sdk/go"
	"kotskhin.example/service/internal/logs"
	"kotskhin.example/service/internal/settings"
)

const rights = "shop-0123456789abcdef write shop\npeer-0123456789abcdef peer *\n"

func must[T any](t *testing.T) func(made T, err error) T {
	return func(made T, err error) T {
		t.Helper()
		if err != nil {
			t.Fatal(err)
		}
		return made
	}
}

func write(t *testing.T, name string, content []byte) string {
	t.Helper()
	if err := os.WriteFile(name, content, 0o600); err != nil {
		t.Fatal(err)
	}
	return name
}

func block(kind string, content []byte) []byte {
	return pem.EncodeToMemory(&pem.Block{Type: kind, Bytes: content})
}

// certified makes a CA, and a certificate of localhost by it: the names of three files.
func certified(t *testing.T, folder string) (ca, cert, key string) {
	t.Helper()
	own := must[*ecdsa.PrivateKey](t)(ecdsa.GenerateKey(elliptic.P256(), rand.Reader))
	of := func(serial int64, isCA bool) *x509.Certificate {
		return &x509.Certificate{
			SerialNumber: big.NewInt(serial), Subject: pkix.Name{CommonName: fmt.Sprint(serial)}, NotBefore: time.Now().Add(-time.Hour),
			NotAfter: time.Now().Add(time.Hour), IsCA: isCA, BasicConstraintsValid: true, DNSNames: []string{"localhost"},
			KeyUsage:    x509.KeyUsageCertSign | x509.KeyUsageDigitalSignature,
			ExtKeyUsage: []x509.ExtKeyUsage{x509.ExtKeyUsageServerAuth, x509.ExtKeyUsageClientAuth},
		}
	}
	root := must[[]byte](t)(x509.CreateCertificate(rand.Reader, of(1, true), of(1, true), own.Public(), own))
	leaf := must[[]byte](t)(x509.CreateCertificate(rand.Reader, of(2, false), of(1, true), own.Public(), own))
	bytes := must[[]byte](t)(x509.MarshalECPrivateKey(own))
	kept := func(name, kind string, content []byte) string {
		return write(t, filepath.Join(folder, name), block(kind, content))
	}
	return kept("ca", "CERTIFICATE", root), kept("cert", "CERTIFICATE", leaf), kept("key", "EC PRIVATE KEY", bytes)
}

// freePort is a port that is free, below those that the system gives to who asks for any: so nobody gets it until it is used.
func freePort(t *testing.T) string {
	t.Helper()
	for {
		port := must[*big.Int](t)(rand.Int(rand.Reader, big.NewInt(12_000))).Uint64() + 20_000
		if listener, err := net.Listen("tcp", fmt.Sprint("127.0.0.1:", port)); err == nil {
			listener.Close()
			return fmt.Sprint(port)
		}
	}
}

// early is an environment in which gateways may adopt beside peers earlier than is safe: a test has no time to wait.
func early(name string) string { return map[string]string{settings.Unsafe: "1"}[name] }

// begun is a gateway of these words, and what ends it and gives its error.
func begun(t *testing.T, words ...string) func() error {
	t.Helper()
	return logging(t, io.Discard, words...)
}

// logging is the same, of which errors are logged.
func logging(t *testing.T, into io.Writer, words ...string) func() error {
	t.Helper()
	read := must[*settings.Settings](t)(settings.Read(words, early, io.Discard))
	ctx, cancel := context.WithCancel(context.Background())
	ended := make(chan error, 1)
	go func() { ended <- serve(ctx, read, logs.New(into, logs.Error, false)) }()
	return func() error {
		cancel()
		return <-ended
	}
}

// clientOf speaks TLS, with a certificate where one is given.
func clientOf(t *testing.T, ca, cert, key string) *http.Client {
	t.Helper()
	roots := x509.NewCertPool()
	roots.AppendCertsFromPEM(must[[]byte](t)(os.ReadFile(ca)))
	speaks := &tls.Config{RootCAs: roots}
	if cert != "" {
		speaks.Certificates = []tls.Certificate{must[tls.Certificate](t)(tls.LoadX509KeyPair(cert, key))}
	}
	return &http.Client{Transport: &http.Transport{TLSClientConfig: speaks}, Timeout: 30 * time.Second}
}

// asked is the status and the text of an answer; 0 where there is none.
func asked(client *http.Client, method, url, token string, body []byte) (int, string) {
	request, err := http.NewRequest(method, url, bytes.NewReader(body))
	if err != nil {
		return 0, err.Error()
	}
	request.Header.Set("Authorization", "Bearer "+token)
	answer, err := client.Do(request)
	if err != nil {
		return 0, err.Error()
	}
	defer answer.Body.Close()
	told, _ := io.ReadAll(answer.Body)
	return answer.StatusCode, string(told)
}

func until(t *testing.T, what string, holds func() bool) {
	t.Helper()
	for turn := 0; !holds(); turn++ {
		if turn == 30_000 {
			t.Fatal(what)
		}
		time.Sleep(10 * time.Millisecond)
	}
}

func exported(t *testing.T, value int64) []byte {
	t.Helper()
	plan := must[kotskhin.Plan](t)(kotskhin.NewPlan(kotskhin.Instrument{Scope: "app", Name: "requests", Unit: "1", Kind: kotskhin.Counter}))
	writer := must[kotskhin.Writer](t)(kotskhin.StartWriter(plan, "shop", kotskhin.Instance{Low: 1}, 100))
	if err := writer.Measure(0, must[kotskhin.Attributes](t)(kotskhin.NewAttributes()), value); err != nil {
		t.Fatal(err)
	}
	return must[[]byte](t)(must[kotskhin.Export](t)(writer.Collect(200)).Encode())
}

// Two gateways that find each other by a name speak TLS with certificates and tokens, and one that ends has kept what it took.
func TestTwoByNameWithTLSAndTokens(t *testing.T) {
	room := t.TempDir()
	ca, cert, key := certified(t, room)
	tokens := write(t, filepath.Join(room, "tokens"), []byte(rights))
	ports := []string{freePort(t), freePort(t)}
	common := []string{
		"--token-file", tokens, "--tls-cert", cert, "--tls-key", key, "--client-ca", ca, "--gossip-interval", "20ms",
		"--gossip-longest-pause", "100ms", "--peer", "localhost:" + ports[0], "--peer", "localhost:" + ports[1],
	}
	words := func(number int) []string {
		return append([]string{"--listen", "127.0.0.1:" + ports[number], "--state", filepath.Join(room, ports[number])}, common...)
	}
	ends := []func() error{begun(t, words(0)...), begun(t, words(1)...)}
	client := clientOf(t, ca, cert, key)
	url := func(number int, path string) string { return "https://localhost:" + ports[number] + path }
	until(t, "it is not ready", func() bool { status, _ := asked(client, "GET", url(0, "/readyz"), "", nil); return status == 200 })
	status, told := asked(client, "POST", url(0, "/v1/exports"), "shop-0123456789abcdef", exported(t, 7))
	if status != 200 {
		t.Fatal(status, told)
	}
	if status, _ := asked(client, "POST", url(0, "/v1/exports"), "peer-0123456789abcdef", exported(t, 7)); status != 403 {
		t.Fatal(status)
	}
	if status, told := asked(clientOf(t, ca, "", ""), "GET", url(0, "/readyz"), "", nil); status != 0 {
		t.Fatal(status, told)
	}
	holds := func(number int) func() bool {
		return func() bool {
			_, told := asked(client, "GET", url(number, "/v1/table"), "", nil)
			return strings.HasSuffix(told, "  7\n")
		}
	}
	until(t, "the other one is not told", holds(1))
	for _, end := range ends {
		if err := end(); err != nil {
			t.Fatal(err)
		}
	}
	alone := begun(t, words(1)...)
	until(t, "it comes back without what it held", holds(1))
	if err := alone(); err != nil {
		t.Fatal(err)
	}
}

// replaced puts a whole file in the place of another, as an operator does.
func replaced(t *testing.T, name, content string) {
	t.Helper()
	if err := os.Rename(write(t, name+".new", []byte(content)), name); err != nil {
		t.Fatal(err)
	}
}

// The tokens of two gateways are changed while they run: each is asked by a signal, and sees it by itself. A bad file changes nothing.
func TestTokensAreReadAgain(t *testing.T) {
	room := t.TempDir()
	tokens := write(t, filepath.Join(room, "tokens"), []byte(rights))
	ports := []string{freePort(t), freePort(t)}
	var ends []func() error
	for number, port := range ports {
		ends = append(ends, begun(t, "--listen", "127.0.0.1:"+port, "--token-file", tokens, "--gossip-interval", "20ms",
			"--gossip-longest-pause", "100ms", "--peer", "http://127.0.0.1:"+ports[1-number]))
	}
	client := &http.Client{Timeout: 30 * time.Second}
	url := func(number int, path string) string { return "http://127.0.0.1:" + ports[number] + path }
	posted := func(number int, token string) int {
		status, _ := asked(client, "POST", url(number, "/v1/exports"), token, exported(t, 7))
		return status
	}
	const first, second, third = "shop-0123456789abcdef", "next-0123456789abcdef", "last-0123456789abcdef"
	until(t, "it is not ready", func() bool { return posted(0, second) == 401 })
	replaced(t, tokens, second+" write shop\npeer-fedcba9876543210 peer *\n")
	if err := syscall.Kill(os.Getpid(), syscall.SIGHUP); err != nil {
		t.Fatal(err)
	}
	until(t, "another token is not taken", func() bool { return posted(0, second) == 200 })
	if status := posted(0, first); status != 401 {
		t.Fatal(status)
	}
	// (what one took the other is told by the other token alone, since the earlier one is not known any more)
	until(t, "they do not speak by another token", func() bool {
		_, told := asked(client, "GET", url(1, "/v1/table"), "", nil)
		return strings.HasSuffix(told, "  7\n")
	})
	replaced(t, tokens, "short write shop\n")
	if err := syscall.Kill(os.Getpid(), syscall.SIGHUP); err != nil {
		t.Fatal(err)
	}
	time.Sleep(2 * tokenLooks)
	if status := posted(0, second); status != 200 {
		t.Fatal(status)
	}
	replaced(t, tokens, third+" write shop\n")
	until(t, "a change is not seen", func() bool { return posted(0, third) == 200 && posted(1, third) == 200 })
	if status := posted(1, second); status != 401 {
		t.Fatal(status)
	}
	for _, end := range ends {
		if err := end(); err != nil {
			t.Fatal(err)
		}
	}
}

func TestWhatIsNotThere(t *testing.T) {
	room := t.TempDir()
	for _, words := range [][]string{
		{"--token-file", filepath.Join(room, "none")}, {"--tls-cert", filepath.Join(room, "none"), "--tls-key", filepath.Join(room, "none")},
		{"--listen", "256.0.0.1:1"}, {"--token-file", write(t, filepath.Join(room, "bad"), []byte("short write shop\n"))},
	} {
		read := must[*settings.Settings](t)(settings.Read(words, func(string) string { return "" }, io.Discard))
		if err := serve(context.Background(), read, nil); err == nil {
			t.Error(words)
		}
	}
}
