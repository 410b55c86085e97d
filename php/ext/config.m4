PHP_ARG_ENABLE([apcu],
  [whether to enable apcu over the proved cache],
  [AS_HELP_STRING([--enable-apcu], [Enable apcu])])

PHP_ARG_WITH([cache-c],
  [for a library of the engine],
  [AS_HELP_STRING([--with-cache-c=FILE],
    [Link the static library FILE in place of the engine's assembly text])],
  [no],
  [no])

if test "$PHP_APCU" != "no"; then
  dnl The engine and its headers: in this folder in a source package, two folders up in the repository.
  apcu_capi=
  for folder in "PHP_EXT_SRCDIR(apcu)/capi" "PHP_EXT_SRCDIR(apcu)/../../capi"; do
    if test -z "$apcu_capi" && test -f "$folder/cache_c.h"; then
      apcu_capi=$folder
    fi
  done
  if test -z "$apcu_capi"; then
    AC_MSG_ERROR([there is no folder capi with cache_c.h in PHP_EXT_SRCDIR(apcu), nor two folders up])
  fi
  PHP_ADD_INCLUDE([$apcu_capi])

  if test "$PHP_CACHE_C" = "no"; then
    AC_MSG_CHECKING([for the engine's assembly text])
    case $host_cpu in
      x86_64|amd64[)] apcu_cpu=x86_64 ;;
      aarch64|arm64[)] apcu_cpu=aarch64 ;;
      *[)] AC_MSG_ERROR([there is none for the processor $host_cpu, only for x86_64 and aarch64; --with-cache-c=FILE takes a library]) ;;
    esac
    if test ! -f "$apcu_capi/engine/cache_c.$apcu_cpu.s"; then
      AC_MSG_ERROR([there is no $apcu_capi/engine/cache_c.$apcu_cpu.s])
    fi
    AC_MSG_RESULT([cache_c.$apcu_cpu.s])
    PHP_ADD_INCLUDE([$apcu_capi/engine])
    apcu_engine=engine.S
  else
    if test ! -f "$PHP_CACHE_C"; then
      AC_MSG_ERROR([--with-cache-c=FILE: there is no file $PHP_CACHE_C])
    fi
    apcu_engine=
    if test "$ext_shared" = "yes"; then
      APCU_SHARED_LIBADD="$PHP_CACHE_C $APCU_SHARED_LIBADD"
    else
      EXTRA_LIBS="$PHP_CACHE_C $EXTRA_LIBS"
    fi
  fi
  PHP_ADD_LIBRARY([pthread],, [APCU_SHARED_LIBADD])
  dnl Other objects of the process see nothing of the engine.
  APCU_SHARED_LIBADD="$APCU_SHARED_LIBADD -export-symbols-regex ^get_module"
  PHP_SUBST([APCU_SHARED_LIBADD])

  APCU_CFLAGS="-std=gnu11 -D_GNU_SOURCE -DZEND_ENABLE_STATIC_TSRMLS_CACHE=1 -fvisibility=hidden -Wall -Wextra -Wno-unused-parameter -Werror=implicit-function-declaration"
  PHP_NEW_EXTENSION([apcu], [apcu.c entry.c functions.c info.c iterator.c kept.c preload.c record.c settings.c shm.c values.c $apcu_engine],
    [$ext_shared],, [$APCU_CFLAGS])
  PHP_INSTALL_HEADERS([ext/apcu], [apc_serializer.h])
  PHP_ADD_MAKEFILE_FRAGMENT
fi
