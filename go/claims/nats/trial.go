package nats

import "context"

// Check connects once, and says why this member can't use the server: a *claims.Unfit, or why that does not answer as it is to. It changes nothing
// there, and wants no Open.
func (s *Store) Check(ctx context.Context) error {
	once, cancel := context.WithCancel(ctx)
	cancel() // So it is not tried again.
	if err := s.connect(once); err != nil {
		return err
	}
	all, err := s.infos(ctx)
	if err != nil {
		return err
	}
	for k, i := range all {
		if i == nil {
			continue // It is made.
		}
		if err := s.fit(kind(k), i.Config, s.o.Terms); err != nil {
			return err
		}
	}
	return nil
}
