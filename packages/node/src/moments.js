// Moments by two clocks, since one of them stands still while the machine is suspended, and the other one may be wrong.

/** A moment, in milliseconds: `up` by the clock that only goes ahead, and `wall` by the one that also goes on while the machine is suspended. */
export const momentOf = (wall = Date.now()) => ({ up: performance.now(), wall });

/** The moment so many milliseconds later, by both clocks. */
export const later = ({ up, wall }, millis) => ({ up: up + millis, wall: wall + millis });

/** Whether more than so many milliseconds have passed since a moment, by either clock. `rounding` is how many `wall` may lack. */
export const isOver = (most, since, now = momentOf(), rounding = 0) => now.up - since.up > most || now.wall - since.wall > most + rounding;
