# The tests need posix, which some systems have as a module of its own; `make test` looks for modules in this folder alone.
PHP_TEST_SHARED_EXTENSIONS += `$(PHP_EXECUTABLE) -n -r '$$file = PHP_EXTENSION_DIR . "/posix.so"; extension_loaded("posix") || !is_file($$file) || print("-d extension=$$file");'`
