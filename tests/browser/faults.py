"""Replies that come late, that are lost, that are refused by nginx, or that are answers to what never came: the browser's own `fetch` is told
which."""
FETCH = """
const real = window.fetch.bind(window);
window.faults = [];
window.fetch = async (place, about) => {
    const fault = window.faults.find((one) => one.method === about.method && place.includes(one.place) && one.times > 0);
    if (!fault) return real(place, about);
    fault.times -= 1;
    if (fault.what === "too_often") return new Response("", { status: 429 });
    const reply = fault.what === "unsent" ? null : await real(place, about);
    if (fault.what !== "late") throw new TypeError("Failed to fetch");
    await new Promise((go_on) => { window.go_on = go_on; });
    const text = reply.text.bind(reply);
    reply.text = () => text().finally(() => setTimeout(() => { window.came = true; }));
    return reply;
};
"""


def break_fetch(screen):
    """From now on, until the page is loaded anew, replies can be made late or lost."""
    screen.run(FETCH)


def fault(screen, what, method, place, times=1):
    """The next requests of a method to a place come to this: their replies are `late`, or `lost`, or `too_often`, or they are `unsent`."""
    screen.run("window.faults.push(arguments[0])", {"what": what, "method": method, "place": place, "times": times})


def no_more_faults(screen):
    screen.run("window.faults = []")


def come_late(screen):
    """Lets the late reply come, and waits until the page has read it."""
    screen.wait(lambda: screen.run("return Boolean(window.go_on)"), "a reply is held")
    screen.run("window.came = false; window.go_on(); window.go_on = null;")
    screen.wait(lambda: screen.run("return window.came"), "the reply is read")
