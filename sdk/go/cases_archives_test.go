package kotskhin

// archiving performs what is of archives alone.
func (r *run) archiving(s step) (any, error) {
	thing := func(word string) any { return r.things[s[word].(string)] }
	switch s["do"] {
	case "archive", "adopt":
		return r.identified(s)
	case "archive_export":
		time, err := unsigned(s["time"], 64)
		if err != nil {
			return nil, err
		}
		made, err := thing("by").(Archive).Export(time)
		return r.keep(s, made, err)
	case "seal":
		start, err := unsigned(s["start"], 64)
		if err != nil {
			return nil, err
		}
		return nil, thing("by").(Archive).Seal(start)
	default:
		start, adopted, err := thing("of").(Archive).Head()
		return map[string]any{"start": start, "adopted": adopted}, err
	}
}

// identified performs what tells a service, an instance and a start.
func (r *run) identified(s step) (any, error) {
	service := text_(s["service"])
	id, err := instance(s["instance"])
	if err != nil {
		return nil, err
	}
	start, err := unsigned(s["start"], 64)
	if err != nil {
		return nil, err
	}
	if s["do"] == "adopt" {
		return nil, r.things[s["by"].(string)].(Archive).Adopt(r.things[s["gateway"].(string)].(Gateway), service, id, start)
	}
	limit, err := signed(s["limit"], 64)
	if err != nil {
		return nil, err
	}
	made, err := beginArchive(service, id, start, int(limit))
	return r.keep(s, made, err)
}
