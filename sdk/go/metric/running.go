package metric

import (
	"errors"
	"math"
	"runtime"
	"sync"
	"sync/atomic"

	kotskhin "kotskhin.example/sdk/go"
	"kotskhin.example/sdk/go/attribute"
)

// How many recordings a shard notes before the writer takes them in, by one crossing into C.
const shardSize = 256

// A shard is a log of its own, which few goroutines meet in: a processor's, most often.
type shard struct {
	lock sync.Mutex
	// The numbers of forms that were recorded here.
	numbers  map[string]uint64
	list     []kotskhin.Noted
	isClosed bool
	_        [64]byte
}

// What is held under a number.
type pair struct {
	instrument *instrument
	pairs      []attribute.KeyValue
}

// An engine is what a provider has once it has started.
type engine struct {
	provider *MeterProvider
	writer   kotskhin.Writer
	held     int
	shards   []*shard
	next     uint32
	// Shards, for the processor that it is on.
	pool sync.Pool

	lock    sync.RWMutex
	numbers map[string]uint64
	pairs   []pair

	collecting sync.Mutex
	last       uint64
	limits     *limits
}

func newEngine(provider *MeterProvider, writer kotskhin.Writer, limits *limits, start uint64) *engine {
	r := &engine{provider: provider, writer: writer, limits: limits, held: provider.config.held, last: start}
	r.numbers = map[string]uint64{}
	for i := 0; i < 2*runtime.GOMAXPROCS(0); i++ {
		r.shards = append(r.shards, &shard{numbers: map[string]uint64{}, list: make([]kotskhin.Noted, 0, shardSize)})
	}
	r.pool.New = func() any { return r.shards[int(atomic.AddUint32(&r.next, 1))%len(r.shards)] }
	return r
}

// note notes a value at a form that has a number, and tells whether it has. Of a gauge the last value counts, so it goes to the writer at
// once: values that wait in two shards have no order.
func (r *engine) note(i *instrument, form []byte, value int64) bool {
	s := r.pool.Get().(*shard)
	s.lock.Lock()
	number, ok := s.numbers[string(form)]
	if !ok || s.isClosed || i.kind == kotskhin.Gauge {
		s.lock.Unlock()
		r.pool.Put(s)
		return ok && i.kind == kotskhin.Gauge && r.measureHeld(number, value)
	}
	s.list = append(s.list, kotskhin.Noted{Number: number, Value: value})
	var refused []Refusal
	if len(s.list) == cap(s.list) {
		refused = r.takeIn(s)
	}
	s.lock.Unlock()
	r.pool.Put(s)
	r.refuse(refused)
	return true
}

// measureHeld records a value at once.
func (r *engine) measureHeld(number uint64, value int64) bool {
	if err := r.writer.MeasureHeld(int(number), value); err != nil {
		held := r.pairOf(number)
		held.instrument.refuse(value, held.pairs, err)
	}
	return true
}

// takeIn records what a shard noted, whose lock is held, and gives what is refused.
func (r *engine) takeIn(s *shard) []Refusal {
	var refused []Refusal
	err := r.writer.MeasureAll(s.list, func(place int, why kotskhin.Refused) {
		refused = append(refused, r.newRefusal(s.list[place], why))
	})
	if err != nil {
		for _, noted := range s.list {
			refused = append(refused, r.newRefusal(noted, err))
		}
	}
	s.list = s.list[:0]
	return refused
}

func (r *engine) newRefusal(noted kotskhin.Noted, err error) Refusal {
	held := r.pairOf(noted.Number)
	return Refusal{held.instrument.scope, held.instrument.name, 1, noted.Value, held.pairs, err}
}

// takeInAll takes in each shard; where the writer is to be closed no shard notes anything from then on.
func (r *engine) takeInAll(isLast bool) []Refusal {
	var refused []Refusal
	for _, s := range r.shards {
		s.lock.Lock()
		s.isClosed = s.isClosed || isLast
		refused = append(refused, r.takeIn(s)...)
		s.lock.Unlock()
	}
	return refused
}

func (r *engine) refuse(refused []Refusal) {
	for _, refusal := range refused {
		r.provider.refuse(refusal)
	}
}

func (r *engine) pairOf(number uint64) pair {
	r.lock.RLock()
	defer r.lock.RUnlock()
	return r.pairs[number]
}

// measure records a value at a set: under a number, which the shards know from then on, as long as there are not too many.
func (r *engine) measure(i *instrument, value int64, pairs []attribute.KeyValue, form string) error {
	number, isHeld, err := r.hold(i, pairs, form)
	if err != nil {
		return err
	}
	if !isHeld {
		set, err := kotskhin.NewAttributes(pairs...)
		if err != nil {
			return err
		}
		defer set.Close()
		return r.writer.Measure(i.number, set, value)
	}
	s := r.pool.Get().(*shard)
	s.lock.Lock()
	s.numbers[form] = number
	s.lock.Unlock()
	r.pool.Put(s)
	return r.writer.MeasureHeld(int(number), value)
}

// hold is the number of a form, and whether there is one.
func (r *engine) hold(i *instrument, pairs []attribute.KeyValue, form string) (uint64, bool, error) {
	r.lock.RLock()
	number, ok := r.numbers[form]
	r.lock.RUnlock()
	if ok {
		return number, true, nil
	}
	r.lock.Lock()
	defer r.lock.Unlock()
	if number, ok := r.numbers[form]; ok || len(r.numbers) >= r.held {
		return number, ok, nil
	}
	set, err := kotskhin.NewAttributes(pairs...)
	if err != nil {
		return 0, false, err
	}
	defer set.Close()
	held, err := r.writer.Hold(i.number, set)
	if err != nil {
		return 0, false, err
	}
	for len(r.pairs) <= held {
		r.pairs = append(r.pairs, pair{i, pairs})
	}
	r.numbers[form] = uint64(held)
	return uint64(held), true, nil
}

// collect takes all shards in, and collects. What that refuses, and which streams came to their limit, is told once no lock is held: a
// hook may collect, too.
func (r *engine) collect(isLast bool) (kotskhin.Export, error) {
	export, refused, limited, err := r.collectOnce(isLast)
	r.refuse(refused)
	for _, refusal := range limited {
		r.provider.tell(refusal)
	}
	return export, err
}

// collectOnce collects at the time of the clock, or right after the last collection where the clock was put back.
func (r *engine) collectOnce(isLast bool) (export kotskhin.Export, refused, limited []Refusal, err error) {
	r.collecting.Lock()
	defer r.collecting.Unlock()
	refused = r.takeInAll(isLast)
	time := now()
	if time <= r.last && r.last < math.MaxUint64 {
		time = r.last + 1
	}
	collect := r.writer.Collect
	if isLast {
		collect = r.writer.Shutdown
	}
	if export, err = collect(time); err != nil {
		return export, refused, nil, err
	}
	r.last = time
	return export, refused, r.limits.findBeyond(export), nil
}

// isClosed tells whether an error says that the writer was closed.
func isClosed(err error) bool { return errors.Is(err, kotskhin.ErrClosed) }
