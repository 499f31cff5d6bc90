package metric

import (
	"errors"
	"fmt"

	kotskhin "kotskhin.example/sdk/go"
)

// kitInstrument is the instrument as the kit's rules of names, units and scopes see it.
func (i *instrument) kitInstrument() kotskhin.Instrument {
	return kotskhin.Instrument{Scope: i.scope, Name: i.name, Unit: i.unit, Kind: i.kind}
}

// planEntry is the instrument under a name of its own, so that the views of that name are its alone: the kit's are of a name, and not of a
// unit. They give its streams their real names.
func (i *instrument) planEntry() (kotskhin.Instrument, []kotskhin.View) {
	entry := i.kitInstrument()
	entry.Name = fmt.Sprintf("instrument.%d", i.number)
	var views []kotskhin.View
	for _, view := range i.views {
		view.Name, view.Kind, view.Scope = entry.Name, nil, nil
		if view.Rename == "" {
			view.Rename = i.name
		}
		views = append(views, view)
	}
	return entry, views
}

// applyViews gives the instrument its views: those of the provider that are of it and can be applied, or else its advice. One that can't be
// applied is passed over, and told (OpenTelemetry Metrics SDK, "View").
func (i *instrument) applyViews(views []kotskhin.View) (inapplicable []Refusal, err error) {
	for number, view := range views {
		if !i.matches(view) {
			continue
		}
		switch fault := planFault([]kotskhin.Instrument{i.kitInstrument()}, []kotskhin.View{view}, 1); {
		case fault == nil:
			i.views = append(i.views, view)
		case isInapplicable(fault):
			inapplicable = append(inapplicable, Refusal{Scope: i.scope, Instrument: i.name, Err: &ViewError{View: number, Err: fault}})
		default:
			return nil, fault
		}
	}
	if i.views == nil {
		i.views = []kotskhin.View{{Bounds: i.bounds}}
	}
	return inapplicable, nil
}

// ViewError says that a view can't be applied to an instrument, which is as if the view was not there.
type ViewError struct {
	// View is the view's number, from 0, in the order in which the provider was given its views.
	View int
	// Err is why, found by kotskhin.ErrBadBounds, ErrBadRename, ErrWildcardRename, or ErrBadAggregation.
	Err error
}

// Error says which view, and why.
func (e *ViewError) Error() string {
	why := e.Err
	var refused kotskhin.Refused
	if errors.As(why, &refused) {
		// (its places are those of a plan that the user does not know)
		why = refused.Code
	}
	return fmt.Sprintf("view %d can't be applied, and is passed over: %v", e.View, why)
}

// Unwrap is why.
func (e *ViewError) Unwrap() error { return e.Err }

// isInapplicable tells whether a refusal is of a view, and of nothing beside it.
func isInapplicable(err error) bool {
	return errors.Is(err, kotskhin.ErrBadBounds) || errors.Is(err, kotskhin.ErrBadRename) ||
		errors.Is(err, kotskhin.ErrWildcardRename) || errors.Is(err, kotskhin.ErrBadAggregation)
}

// planOf is the plan of instruments.
func planOf(instruments []*instrument, limit uint64) (kotskhin.Plan, error) {
	var planned []kotskhin.Instrument
	var views []kotskhin.View
	for _, i := range instruments {
		entry, own := i.planEntry()
		planned, views = append(planned, entry), append(views, own...)
	}
	return kotskhin.PlanWith(planned, views, limit)
}

// feeds are the streams of the instrument, each as a text that no other stream has. Refused is where two of its views make one stream.
func (i *instrument) feeds() ([]string, error) {
	plan, err := planOf([]*instrument{i}, 1)
	if err != nil {
		return nil, err
	}
	defer plan.Close()
	streams, err := plan.Streams()
	if err != nil {
		return nil, err
	}
	defer streams.Close()
	all, err := streams.All()
	if err != nil {
		return nil, err
	}
	var feeds []string
	for _, stream := range all {
		feeds = append(feeds, fmt.Sprintf("%q %q %q %d %v", stream.Scope, stream.Name, stream.Unit, stream.Shape, stream.Bounds))
	}
	return feeds, nil
}

// planFault is why a plan is refused.
func planFault(instruments []kotskhin.Instrument, views []kotskhin.View, limit uint64) error {
	plan, err := kotskhin.PlanWith(instruments, views, limit)
	if err != nil {
		return err
	}
	return plan.Close()
}

// matches tells whether a view is of the instrument.
func (i *instrument) matches(view kotskhin.View) bool {
	isNamed := view.Name == "" || isOneName(view.Name, i.name)
	return isNamed && (view.Kind == nil || *view.Kind == i.kind) && (view.Scope == nil || *view.Scope == i.scope)
}

// isOneName tells whether two names are one but for the case of ASCII letters, as the kit has it.
func isOneName(one, other string) bool {
	if len(one) != len(other) {
		return false
	}
	for i := range []byte(one) {
		if lower(one[i]) != lower(other[i]) {
			return false
		}
	}
	return true
}

func lower(letter byte) byte {
	if 'A' <= letter && letter <= 'Z' {
		return letter + 'a' - 'A'
	}
	return letter
}
