package otlp

import kotskhin "kotskhin.example/sdk/go"

// A resource that the kit takes, so that it can be asked of a metric alone.
var anyResource = func() []byte {
	pair := func(key, value string) []byte {
		text := appendBytes(nil, 1, []byte(value))
		return appendBytes(nil, 1, appendBytes(appendBytes(nil, 1, []byte(key)), 2, text))
	}
	attributes := append(pair("service.name", "s"), pair("service.instance.id", "00000000-0000-0000-0000-000000000001")...)
	return appendBytes(nil, resourceHead, attributes)
}()

// alone is the request of one metric.
func alone(metric []byte) []byte { return ofScope(appendBytes(nil, scopeMetrics, metric)) }

// ofScope is the request of one scope.
func ofScope(scope []byte) []byte {
	resource := appendBytes(append([]byte{}, anyResource...), resourceScopes, scope)
	return appendBytes(nil, requestResources, resource)
}

// scope is a scope without what is refused of it; nil where nothing is left, as of one whose own texts are too long.
func (r *Read) scope(scope []byte) (kept []byte, err error) {
	code, err := probeHead(scope)
	if err != nil {
		return nil, err
	}
	if code != 0 {
		points, err := pointsIn(scope)
		r.refuse(points, code)
		return nil, err
	}
	err = forEach(scope, func(f field) error {
		if f.number != scopeMetrics || f.wire != wireBytes {
			kept = append(kept, f.whole...)
			return nil
		}
		metric, err := r.metric(f.content)
		if metric != nil {
			kept = appendBytes(kept, scopeMetrics, metric)
		}
		return err
	})
	return kept, err
}

// probeHead is the code by which the kit refuses a scope of no metrics; 0 where it does not.
func probeHead(scope []byte) (kotskhin.Code, error) {
	var head []byte
	if err := forEach(scope, func(f field) error {
		if f.number != scopeMetrics {
			head = append(head, f.whole...)
		}
		return nil
	}); err != nil {
		return 0, err
	}
	return probe(ofScope(head))
}

// metric is a metric without the points that are refused; nil where nothing is left of it.
func (r *Read) metric(metric []byte) ([]byte, error) {
	code, err := probe(alone(metric))
	if code == 0 || err != nil {
		return metric, err
	}
	if code >= kotskhin.ErrNoRecordedValue && code <= kotskhin.ErrAttributeValue || code == kotskhin.ErrTooManyAttributes {
		return r.points(metric)
	}
	points, err := pointsOf(metric)
	r.refuse(points, code)
	return nil, err
}

// points is a metric with those of its points that the kit takes one by one.
func (r *Read) points(metric []byte) (kept []byte, err error) {
	left := 0
	err = forEach(metric, func(f field) error {
		if !isData(f) {
			kept = append(kept, f.whole...)
			return nil
		}
		content, count, err := r.data(f)
		left += count
		kept = appendBytes(kept, f.number, content)
		return err
	})
	if left == 0 {
		return nil, err
	}
	return kept, err
}

// data is the data of a metric with the points that are left of it, and their number.
func (r *Read) data(data field) (kept []byte, left int, err error) {
	var kind []byte
	if err := forEach(data.content, func(f field) error {
		if f.number != dataPoints {
			kept = append(kept, f.whole...)
		}
		// (a field that is not known could be long, and would stand before each point)
		if f.wire == wireNumber && len(kind) < 16 {
			kind = append(kind, f.whole...)
		}
		return nil
	}); err != nil {
		return nil, 0, err
	}
	err = forEachMessage(data.content, dataPoints, func(point []byte) error {
		content := appendBytes(append([]byte{}, kind...), dataPoints, point)
		code, err := probe(alone(appendBytes(appendBytes(nil, metricName, []byte("m")), data.number, content)))
		if err != nil {
			return err
		}
		if code != 0 {
			r.refuse(1, code)
			return nil
		}
		left++
		kept = appendBytes(kept, dataPoints, point)
		return nil
	})
	return kept, left, err
}
