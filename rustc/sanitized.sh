#!/bin/sh
# Cargo's RUSTC_WRAPPER: compiles what goes into the target under AddressSanitizer, which stable rustc
# has only behind RUSTC_BOOTSTRAP. Build scripts and macros are compiled as ever.
case " $* " in
*" --target "*) RUSTC_BOOTSTRAP=1 exec "$@" -Zsanitizer=address ;;
*) exec "$@" ;;
esac
