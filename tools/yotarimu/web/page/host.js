// ---- the machine: a proved program as a WebAssembly module, called with words and bytes

/** How a program was left, in place of a status: it can't go on in this engine. */
class Broken extends Error {}

/** What a call reads and writes. `read(most)` gives bytes, none at the end. Where one throws, the program is told. */
class Streams {
  constructor(read, write) {
    this.read = read;
    this.write = write;
  }

  /** Streams over bytes: what is written is kept, up to so many bytes. */
  static over(input, most = Infinity) {
    const pieces = [];
    let place = 0, size = 0;
    const read = (count) => {
      const piece = input.subarray(place, place + count);
      place += piece.length;
      return piece;
    };
    const write = (piece) => {
      if (size + piece.length > most) throw new RangeError("too much output");
      pieces.push(piece);
      size += piece.length;
    };
    return Object.assign(new Streams(read, write), {written: () => joined(pieces, size)});
  }
}

function joined(pieces, size) {
  const whole = new Uint8Array(size);
  let place = 0;
  for (const piece of pieces) {
    whole.set(piece, place);
    place += piece.length;
  }
  return whole;
}

/** Ends a call from within. */
class Exit {
  constructor(status) { this.status = status; }
}

/** Each call is an instance of its own with fresh memory, as a process is. */
class Program {
  constructor(module) { this.module = module; }

  /** A program from a module that was compressed by gzip and written in base64. */
  static async unpacked(text) {
    const packed = Uint8Array.from(atob(text), (sign) => sign.charCodeAt(0));
    const stream = new Blob([packed]).stream().pipeThrough(new DecompressionStream("gzip"));
    return new Program(await WebAssembly.compile(await new Response(stream).arrayBuffer()));
  }

  /** The status of a call with these words. */
  run(words, streams) {
    const texts = ["fractal", ...words].map((word) => new TextEncoder().encode(word));
    const host = {
      ...hostOf(streams, texts, (place, size) => new Uint8Array(instance.exports.memory.buffer, place, size)),
      exit: (status) => {
        throw new Exit(status);
      }
    };
    const instance = new WebAssembly.Instance(this.module, {host});
    try {
      return instance.exports.main(0, 0n);
    } catch (error) {
      if (error instanceof Exit) return error.status;
      throw new Broken(`the program broke off: ${error.message}`);
    }
  }

  /** The status and the output of a call with these words and this input. */
  call(words, input, most) {
    const streams = Streams.over(input, most);
    return {status: this.run(words, streams), output: streams.written()};
  }
}

/** What shim.c asks of its host. A failure is told by a number below 0. */
function hostOf(streams, texts, bytesAt) {
  return {
    read: (_file, place, size) => failing(() => {
      const piece = streams.read(Number(size));
      bytesAt(Number(place), piece.length).set(piece);
      return BigInt(piece.length);
    }),
    write: (_file, place, size) => failing(() => {
      streams.write(bytesAt(Number(place), Number(size)).slice());
      return size;
    }),
    count_words: () => BigInt(texts.length),
    word: (number, place, size) => {
      const text = texts[Number(number)];
      if (!text) return -1n;
      const piece = text.subarray(0, Number(size));
      bytesAt(Number(place), piece.length).set(piece);
      return piece.length < text.length ? -2n : BigInt(text.length);
    },
  };
}

function failing(call) {
  try {
    return call();
  } catch {
    return -1n;
  }
}
