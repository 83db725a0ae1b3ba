// Faces that a worker makes, part by part.

export class RemoteSupply {
  // desk: the calls of the worker; number: of what is shown there; told: of the share that is done.
  constructor(desk, number, told) {
    Object.assign(this, {desk, number, told, jobs: []});
  }

  faces(kind, behind, take) {
    this.job(async () => {
      for (let part = 0, parts = 1; part < parts && !this.isEnded; part++) {
        this.told(part / parts);
        const found = await this.desk.call("faces", this.number, kind, behind, part);
        parts = found.parts;
        this.take(take, found.lists);
      }
    });
  }

  layers(kind, heights, take) {
    this.job(async () =>
      this.take(take, await this.desk.call("layers", this.number, kind, heights)));
  }

  coarse(most, take) {
    this.job(async () => this.take(take, await this.desk.call("coarse", this.number, most)));
  }

  take(take, lists) {
    if (!this.isEnded) take(lists);
  }

  // (one after another, so that what is asked first is drawn first)
  job(work) {
    const before = this.jobs.at(-1), job = (async () => {
      await before;
      if (this.isEnded) return;
      try {
        await work();
      } catch (why) {
        this.told(undefined, why);
      }
      this.told(1);
    })();
    this.jobs.push(job);
  }

  // Waits until all that was asked is there.
  async done() {
    for (let many = 0; many < this.jobs.length; ) {
      many = this.jobs.length;
      await this.jobs.at(-1);
    }
  }

  end() {
    this.isEnded = true;
  }
}
