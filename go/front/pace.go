package main

import "time"

// The least and the greatest pause between the beginnings of two connections. The pause doubles
// after each connection without a reply, since csid opens and checks its whole file for each
// connection, even for one that the front abandons.
const (
	leastPause    = 100 * time.Millisecond
	greatestPause = time.Second
)

// pace has the time at which the last connection began, and the pause that must follow.
type pace struct {
	last  time.Time
	pause time.Duration
}

// left returns how long the next connection must still wait. It is 0 or negative if the connection
// may begin.
func (p *pace) left() time.Duration { return time.Until(p.last.Add(p.pause)) }

// begins records that a connection begins now: the pause before the next one counts from here.
func (p *pace) begins() { p.last = time.Now() }

// served records that a reply came over the last connection. The pause before the next connection
// is then the least one.
func (p *pace) served() {
	p.pause = leastPause
}

// failed records that the last connection, or the attempt to make it, gave no reply. The pause
// doubles, and is then at least leastPause and at most greatestPause.
func (p *pace) failed() {
	p.pause *= 2
	if p.pause < leastPause {
		p.pause = leastPause
	}
	if p.pause > greatestPause {
		p.pause = greatestPause
	}
}
