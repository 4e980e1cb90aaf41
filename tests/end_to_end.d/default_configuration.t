  $ . "$TESTDIR/../setup"

The configuration that is read if none is named.

  $ [ ! -e /etc/fw_env.config ] || left_out 'the default configuration, since this machine has /etc/fw_env.config'

the default configuration
  $ ubtool printenv
  ! ubtool: cannot read /etc/fw_env.config
  [1]

the default configuration, changed
  $ ubtool setenv a 1
  ! ubtool: cannot read /etc/fw_env.config
  [1]

fw_printenv without words
  $ as fw_printenv
  ! fw_printenv: cannot read /etc/fw_env.config
  [1]
