package otlp

// The numbers of fields that are named here, as opentelemetry-proto has them.
const (
	requestResources = 1
	resourceHead     = 1
	resourceScopes   = 2
	headAttributes   = 1
	pairKey          = 1
	pairValue        = 2
	valueText        = 1
	scopeHead        = 1
	scopeMetrics     = 2
	scopeName        = 1
	metricName       = 1
	metricGauge      = 5
	metricSum        = 7
	metricHistogram  = 9
	metricSummary    = 11
	dataPoints       = 1
)

// Of a metric the fields from its gauge to its summary have its points.
func isData(f field) bool {
	return f.wire == wireBytes && f.number >= metricGauge && f.number <= metricSummary
}

// pointsOf tells how many points a metric has.
func pointsOf(metric []byte) (count int, err error) {
	err = forEach(metric, func(f field) error {
		if !isData(f) {
			return nil
		}
		return forEachMessage(f.content, dataPoints, func([]byte) error { count++; return nil })
	})
	return count, err
}

// pointsIn tells how many points the metrics of a scope have.
func pointsIn(scope []byte) (count int, err error) {
	err = forEachMessage(scope, scopeMetrics, func(metric []byte) error {
		points, err := pointsOf(metric)
		count += points
		return err
	})
	return count, err
}

// pointsUnder tells how many points the scopes of a resource have.
func pointsUnder(resource []byte) (count int, err error) {
	err = forEachMessage(resource, resourceScopes, func(scope []byte) error {
		points, err := pointsIn(scope)
		count += points
		return err
	})
	return count, err
}

// serviceOf is the name of a resource's service; nothing where it says none. It is for who reads a log, so bytes that are refused elsewhere
// say nothing here.
func serviceOf(resource []byte) (name string) {
	_ = forEachMessage(resource, resourceHead, func(head []byte) error {
		return forEachMessage(head, headAttributes, func(pair []byte) error {
			if key, value := textsOf(pair); key == "service.name" && name == "" {
				name = value
			}
			return nil
		})
	})
	return name
}

// textsOf are the key of an attribute, and its value where that is a text.
func textsOf(pair []byte) (key, value string) {
	_ = forEach(pair, func(f field) error {
		switch {
		case f.wire == wireBytes && f.number == pairKey:
			key = string(f.content)
		case f.wire == wireBytes && f.number == pairValue:
			_ = forEachMessage(f.content, valueText, func(text []byte) error { value = string(text); return nil })
		}
		return nil
	})
	return key, value
}
