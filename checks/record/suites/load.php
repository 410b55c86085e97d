<?php // SPDX-License-Identifier: MIT

// What the suites depend on, from Debian's packages.

declare(strict_types=1);

require_once 'Psr/Cache/autoload.php';
require_once 'Psr/SimpleCache/autoload.php';
require_once 'Symfony/Component/Cache/autoload.php';
require_once 'Cache/IntegrationTests/autoload.php';
