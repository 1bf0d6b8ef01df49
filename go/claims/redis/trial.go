package redis

import "context"

// Check connects once, and says why this member can't use the server: a *claims.Unfit, or why that does not answer as it is to. It changes nothing
// there, and wants no Open.
func (s *Store) Check(ctx context.Context) error {
	if err := s.find(ctx); err != nil {
		return err
	}
	reach := s.primary
	if s.cluster {
		reach = s.any
	}
	c, err := reach(ctx)
	if err != nil {
		return err
	}
	defer c.Close()
	return s.check(ctx, c, "", false)
}
