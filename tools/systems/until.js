/* A promise for a page: it is kept once something holds, and broken where that throws or takes too many seconds. */
(seconds, holds) => new Promise((done, fail) => {
  const end = performance.now() + 1000 * seconds;
  const look = () => {
    try {
      if (holds()) return done(true);
    } catch (error) {
      return fail(error);
    }
    return performance.now() > end ? fail(new Error('no end')) : setTimeout(look, 20);
  };
  look();
})
