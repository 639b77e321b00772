// Questions to the program. Every answer comes from its proved library; the page only draws it.

// Asks, and returns the answer. Throws an Error with the program's reason, or one called "ended" if it does not answer.
export async function ask(path, wish) {
  const response = await sent(path, wish);
  const answer = await response.json();
  if (!response.ok) throw new Error(answer.error);
  return answer;
}

// The map's file with changes.
export async function file(wish) {
  const response = await sent("save", wish);
  if (!response.ok) throw new Error((await response.json()).error);
  return response.blob();
}

async function sent(path, wish) {
  const headers = { "Content-Type": "application/json" };
  try {
    return await fetch(path, { method: "POST", headers, body: JSON.stringify(wish) });
  } catch {
    const ended = new Error("The program does not answer. Start it again and open its new address.");
    ended.name = "ended";
    throw ended;
  }
}

// Asks one question after the other. Of those that wait only the latest is asked: a drag asks as often as it is
// answered.
export class Latest {
  constructor(path, done, failed) {
    Object.assign(this, { path, done, failed, waiting: null, asking: false });
  }

  // Asks a wish, or soon. What is noted is handed back with the answer.
  wish(wish, note) {
    this.waiting = { wish, note };
    if (!this.asking) this.next();
  }

  drop() {
    this.waiting = null;
    this.stale = this.asking;
  }

  async next() {
    this.asking = true;
    while (this.waiting) {
      const { wish, note } = this.waiting;
      this.waiting = null;
      this.stale = false;
      try {
        const answer = await ask(this.path, wish);
        if (!this.stale) this.done(answer, wish, note);
      } catch (error) {
        this.failed(error);
      }
    }
    this.asking = false;
  }
}
