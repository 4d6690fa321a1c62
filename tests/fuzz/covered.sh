#!/bin/sh
# Cargo's RUSTC_WRAPPER: compiles what goes into the target so that libFuzzer sees what an input
# covers. Build scripts and macros are compiled as ever.
case " $* " in
*" --target "*)
	exec "$@" -Ccodegen-units=1 -Cpasses=sancov-module -Cllvm-args=-sanitizer-coverage-level=4 \
		-Cllvm-args=-sanitizer-coverage-inline-8bit-counters \
		-Cllvm-args=-sanitizer-coverage-pc-table -Cllvm-args=-sanitizer-coverage-trace-compares
	;;
*) exec "$@" ;;
esac
