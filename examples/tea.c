#include <stdio.h>

// A machine that sells tea for three coins: what it does with each event, in each of its states.
enum state { IDLE, PAYING, SERVING, BROKEN, STATES };
enum event { COIN, BUTTON, BACK, KICK, NONE = -1 };

typedef enum state State;
typedef struct {
	State state;
	int coins;
	int sold;
} Machine;

char *name(State s)
{
	switch (s) {
	case IDLE:
		return "idle";
	case PAYING:
		return "paying";
	case SERVING:
		return "serving";
	case BROKEN:
		return "broken";
	default:
		return "?";
	}
}

enum event event_of(char c)
{
	switch (c) {
	case 'c':
	case 'C':
		return COIN;
	case 't':
		return BUTTON;
	case 'b':
		return BACK;
	case 'k':
		return KICK;
	}
	return NONE;
}

void give_back(Machine *m)
{
	if (m->coins > 0)
		printf("  %d back\n", m->coins);
	m->coins = 0;
	m->state = IDLE;
}

void take(Machine *m, enum event e)
{
	switch (m->state) {
	case SERVING:
		printf("  tea\n");
		m->sold++;
		m->state = IDLE;
		/* and then as an idle one */
	case IDLE:
	case PAYING:
		switch (e) {
		case COIN:
			m->coins++;
			m->state = PAYING;
			break;
		case BUTTON:
			if (m->coins < 3)
				break;
			m->coins -= 3;
			m->state = SERVING;
			break;
		case KICK:
			m->state = BROKEN;
			break;
		default:
			give_back(m);
		}
		break;
	case BROKEN:
		if (e == KICK)
			give_back(m);
		break;
	}
}

int main(void)
{
	Machine m;
	char *events = "cctctcbkcckt";
	m.state = IDLE;
	m.coins = 0;
	m.sold = 0;
	for (int i = 0; events[i]; i++) {
		take(&m, event_of(events[i]));
		printf("%c: %s, %d\n", events[i], name(m.state), m.coins);
	}
	printf("%d sold\n", m.sold);
	return 0;
}
