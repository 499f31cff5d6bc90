package metric

import (
	"bytes"
	"context"
	"crypto/rand"
	"fmt"
	"io"
	"net/http"
	"os"
	"path/filepath"
	"strings"

	kotskhin "kotskhin.example/sdk/go"
)

// The types of what is posted.
const (
	OTLPType  = "application/x-protobuf"
	BytesType = "application/vnd.kotskhin.export"
)

// FileExporter keeps the bytes of the newest export in a file. It is replaced as a whole, so that who reads it finds one export; who may
// read it the umask says.
func FileExporter(path string) Exporter {
	return ExporterFunc(func(_ context.Context, export kotskhin.Export) error {
		encoded, err := export.Encode()
		if err != nil {
			return err
		}
		return replaceFile(path, encoded)
	})
}

// replaceFile writes a file beside one of this path, under a name that nobody else has, and gives it the other's.
func replaceFile(path string, content []byte) error {
	var drawn [8]byte
	if _, err := rand.Read(drawn[:]); err != nil {
		return err
	}
	beside := filepath.Join(filepath.Dir(path), fmt.Sprintf(".%s.%x", filepath.Base(path), drawn))
	file, err := os.OpenFile(beside, os.O_WRONLY|os.O_CREATE|os.O_EXCL, 0666)
	if err != nil {
		return err
	}
	if err := writeAndMove(file, content, path); err != nil {
		os.Remove(beside)
		return err
	}
	return nil
}

func writeAndMove(file *os.File, content []byte, path string) error {
	defer file.Close()
	if _, err := file.Write(content); err != nil {
		return err
	}
	if err := file.Sync(); err != nil {
		return err
	}
	if err := file.Close(); err != nil {
		return err
	}
	return os.Rename(file.Name(), path)
}

// HTTPExporter posts each export as a request of the OpenTelemetry protocol, to a URL that ends in /v1/metrics as a Collector has it. An
// answer other than 2xx is a failure, a redirection too, whose error has what the answer says. One that says that some was not taken fails
// as a *NotTakenError. Headers may be nil, and so may the client.
func HTTPExporter(url string, headers http.Header, client *http.Client) Exporter {
	return newPoster(url, OTLPType, kotskhin.Export.OTLP, headers, client)
}

// HTTPBytesExporter posts the kit's own bytes of each export, as HTTPExporter does.
func HTTPBytesExporter(url string, headers http.Header, client *http.Client) Exporter {
	return newPoster(url, BytesType, kotskhin.Export.Encode, headers, client)
}

func newPoster(url, kind string, bytesOf func(kotskhin.Export) ([]byte, error), headers http.Header, client *http.Client) Exporter {
	if client == nil {
		client = http.DefaultClient
	}
	// (a POST would be made a GET, which brings nothing and succeeds)
	straight := *client
	straight.CheckRedirect = func(*http.Request, []*http.Request) error { return http.ErrUseLastResponse }
	return ExporterFunc(func(ctx context.Context, export kotskhin.Export) error {
		encoded, err := bytesOf(export)
		if err != nil {
			return err
		}
		request, err := http.NewRequestWithContext(ctx, http.MethodPost, url, bytes.NewReader(encoded))
		if err != nil {
			return err
		}
		request.Header.Set("Content-Type", kind)
		for key, values := range headers {
			request.Header[key] = values
		}
		answer, err := straight.Do(request)
		if err != nil {
			return err
		}
		return checkAnswer(answer)
	})
}

// TableExporter prints the tables of each export: one for each stream, below its scope, name and unit.
func TableExporter(out io.Writer) Exporter {
	return ExporterFunc(func(_ context.Context, export kotskhin.Export) error {
		gateway, err := kotskhin.OpenGateway(0)
		if err != nil {
			return err
		}
		defer gateway.Close()
		if _, err := gateway.Take(export); err != nil {
			return err
		}
		streams, err := gateway.Streams()
		if err != nil {
			return err
		}
		defer streams.Close()
		all, err := streams.All()
		if err != nil {
			return err
		}
		for number, stream := range all {
			if err := printTable(out, gateway, streams, number, stream); err != nil {
				return err
			}
		}
		return nil
	})
}

func printTable(out io.Writer, gateway kotskhin.Gateway, streams kotskhin.Streams, number int, stream kotskhin.Stream) error {
	ask, err := kotskhin.AskStream(streams, number)
	if err != nil {
		return err
	}
	defer ask.Close()
	table, err := gateway.Table(ask)
	if err != nil {
		return err
	}
	_, err = fmt.Fprintf(out, "%s\n%s", strings.Join(strings.Fields(stream.Scope+" "+stream.Name+" "+stream.Unit), " "), table)
	return err
}
