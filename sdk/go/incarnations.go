package kotskhin

// #include "kotskhin.h"
import "C"
import "errors"

// Incarnation is of whom there are points: a service, an instance and a start, the greatest time of its points, and how many there are.
type Incarnation struct {
	Service       string
	Instance      Instance
	Start, Newest uint64
	Points        int
}

// Incarnations tells of whom the gateway holds points, by service, instance and start.
func (g Gateway) Incarnations() ([]Incarnation, error) {
	list := newHandle[C.kit_incarnations]()
	err := check(C.kit_gateway_incarnations(g.h.rlock(), &list.raw))
	g.h.runlock()
	return takeIncarnations(list, err)
}

// Services are those of which the gateway holds points, each once.
func (g Gateway) Services() ([]string, error) {
	services := []string{}
	for number := C.size_t(0); ; number++ {
		service, err := copyOut(func(room *C.uint8_t, size C.size_t, length *C.size_t) C.int32_t {
			gateway := g.h.rlock()
			defer g.h.runlock()
			return C.kit_gateway_service(gateway, number, room, size, length)
		})
		if errors.Is(err, ErrNoItem) {
			return services, nil
		}
		if err != nil {
			return nil, err
		}
		services = append(services, string(service))
	}
}

// Incarnations tells of whom the message carries points: what a receiver compares with those of whom its sender may speak.
func (m Message) Incarnations() ([]Incarnation, error) {
	list := newHandle[C.kit_incarnations]()
	err := check(C.kit_message_incarnations(m.h.rlock(), &list.raw))
	m.h.runlock()
	return takeIncarnations(list, err)
}

// takeIncarnations copies a list that a call made, and gives it up.
func takeIncarnations(list *handle[C.kit_incarnations], err error) ([]Incarnation, error) {
	defer list.close()
	if err != nil {
		return nil, err
	}
	var count C.size_t
	if err := check(C.kit_incarnations_len(&list.raw, &count)); err != nil {
		return nil, err
	}
	all := make([]Incarnation, 0, int(count))
	for number := C.size_t(0); number < count; number++ {
		var high, low, start, newest C.uint64_t
		var points C.size_t
		if err := check(C.kit_incarnations_read(&list.raw, number, &high, &low, &start, &newest, &points)); err != nil {
			return nil, err
		}
		service, err := copyOut(func(room *C.uint8_t, size C.size_t, length *C.size_t) C.int32_t {
			return C.kit_incarnations_service(&list.raw, number, room, size, length)
		})
		if err != nil {
			return nil, err
		}
		all = append(all, Incarnation{string(service), Instance{uint64(high), uint64(low)}, uint64(start), uint64(newest), int(points)})
	}
	return all, nil
}
