package sim

import "time"

// patience is how long a plan is shrunk.
const patience = 15 * time.Second

// shrunk is a plan with as few deeds as it takes for the same kind of thing to happen that may not.
func shrunk(p *plan, kind string) *plan {
	least := *p
	fails := func(deeds []deed) bool {
		one := least
		one.deeds = deeds
		return one.run(nil).kind == kind
	}
	end := time.Now().Add(patience)
	for size := len(least.deeds) / 2; size > 0; {
		smaller := false
		for from := 0; from+size <= len(least.deeds); {
			if time.Now().After(end) {
				return &least
			}
			rest := append(append([]deed(nil), least.deeds[:from]...), least.deeds[from+size:]...)
			if fails(rest) {
				least.deeds, smaller = rest, true
			} else {
				from += size
			}
		}
		if !smaller || size > len(least.deeds) {
			size /= 2
		}
	}
	return &least
}
