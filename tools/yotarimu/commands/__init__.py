"""The commands of `./fractal` that this package answers, a module each: arguments in, a status out."""
