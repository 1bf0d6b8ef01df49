package postgres

import (
	"context"

	"svid.example/go/v3/claims"
)

// askServer asks a server what matters to claims, whether the store is there, and whether this user may make it.
const askServer = `SELECT current_setting('fsync'), current_setting('full_page_writes'), current_setting('synchronous_commit'),
	current_setting('synchronous_standby_names'), EXISTS (SELECT FROM pg_namespace WHERE nspname = $1), has_database_privilege(current_database(), 'CREATE')`

// Check connects once, and says why this member can't use the server: a *claims.Unfit, or why that does not answer as it is to. It changes nothing
// there, and wants no Open.
func (s *Store) Check(ctx context.Context) error {
	c, err := s.take(ctx)
	if err != nil {
		return err
	}
	rows, err := c.query(ctx, askServer, s.options.Name)
	s.give(c, err)
	switch {
	case err != nil:
		return s.fault(err)
	case len(rows) != 1:
		return errAnswer
	}
	row := rows[0]
	if err := unfit(text(row[0]), text(row[1]), text(row[2]), text(row[3]), s.options.Replicas); err != nil {
		return err
	}
	switch isThere, mayMake := row[4] == true, row[5] == true; {
	case !isThere && !mayMake:
		return claims.Unfitf("the group has no store yet, and this user may not make it: an administrator makes it by what svidd schema prints, " +
			"or GRANTs this user CREATE ON DATABASE")
	case isThere:
		if missing := s.grants(); missing != "" {
			return claims.Unfitf("this user may not use the store of the group%s", missing)
		}
	}
	return nil
}
