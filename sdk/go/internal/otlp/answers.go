package otlp

import "strings"

// Rejected reads the body of an answer, an ExportMetricsServiceResponse: how many points were refused, and why. Fields that are not known
// are passed over, and of a field that comes twice the last one counts.
func Rejected(answer []byte) (points int64, why string, err error) {
	err = forEachMessage(answer, 1, func(partial []byte) error {
		return forEach(partial, func(f field) error {
			switch {
			case f.number == 1 && f.wire == wireNumber:
				value, _ := readNumber(f.content)
				points = int64(value)
			case f.number == 2 && f.wire == wireBytes:
				why = strings.ToValidUTF8(string(f.content), "\uFFFD")
			}
			return nil
		})
	})
	if err != nil {
		return 0, "", err
	}
	return points, why, nil
}
