// The tabs of one browser, which tell each other of their session. A channel reaches pages of the same origin alone, and keeps nothing.
// A session is given only to a tab that asked within the last seconds, by a channel of that question's own.

const NAME = 'koghdise';
const MILLISECONDS_ASKED = 10_000;
const [MOST_TIMES, MILLISECONDS_BETWEEN] = [20, 3000];
let channel = null;

// Joins the tabs, and calls a function of a map for what another tab tells, by its name. That of `ask` gives the answer, or null.
export function join_tabs(heard) {
  channel = new BroadcastChannel(NAME);
  channel.addEventListener('message', ({ data }) => {
    const answer = heard[data.what]?.(data);
    if (answer && Math.abs(Date.now() - data.asked) < MILLISECONDS_ASKED) give(data.answer_at, answer);
  });
}

// Tells all other tabs something: an object whose member `what` names it.
export const tell_tabs = (message) => channel?.postMessage(message);

function give(answer_at, answer) {
  const own = new BroadcastChannel(answer_at);
  own.postMessage(answer);
  own.close();
}

// Asks the other tabs about something, as long as an answer is wanted, and calls `take` with the first one. A tab that isn't seen may be
// slow, so the question is asked again a few times.
export function ask_tabs(about, is_wanted, take) {
  const answer_at = `${NAME} ${crypto.randomUUID()}`;
  const own = new BroadcastChannel(answer_at);
  let times = 0;
  const ask = () => {
    times += 1;
    if (times <= MOST_TIMES && is_wanted()) tell_tabs({ what: 'ask', answer_at, asked: Date.now(), ...about });
    else end();
  };
  const timer = setInterval(ask, MILLISECONDS_BETWEEN);
  const end = () => {
    clearInterval(timer);
    own.close();
  };
  own.addEventListener('message', ({ data }) => {
    end();
    if (is_wanted()) take(data);
  });
  ask();
}
