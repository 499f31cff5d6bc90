package otlp

import "net/http"

// Type is that of requests and answers.
const Type = "application/x-protobuf"

// Taken is the body of an answer: an ExportMetricsServiceResponse, with what was refused where something was.
func Taken(refused int, why string) []byte {
	if refused == 0 {
		return nil
	}
	partial := appendWhole(nil, 1, uint64(refused))
	return appendBytes(nil, 1, appendBytes(partial, 2, []byte(why)))
}

// gRPC's codes, which a Status carries.
var grpc = map[int]uint64{
	http.StatusBadRequest: 3, http.StatusRequestEntityTooLarge: 3, http.StatusUnsupportedMediaType: 3, http.StatusRequestTimeout: 4,
	http.StatusForbidden: 7, http.StatusTooManyRequests: 8, http.StatusServiceUnavailable: 14, http.StatusUnauthorized: 16,
}

// Status is the body of an answer that refuses the whole request: a google.rpc.Status.
func Status(status int, why string) []byte {
	code, is := grpc[status]
	if !is {
		code = 2
	}
	return appendBytes(appendWhole(nil, 1, code), 2, []byte(why))
}
