"""What pytest says of a test that fails over the fixture `board`."""
pytest_plugins = ["pytester"]

PLUGIN = ("-p", "board440fx.pytest_plugin", "-p", "no:cacheprovider")


def test_a_failure_says_which_register_denied_the_access(pytester):
    pytester.makepyfile("""
        def test_shadow(board):
            assert board.read(0xE0000) == 0x55
    """)
    result = pytester.runpytest(*PLUGIN)
    result.assert_outcomes(failed=1)
    result.stdout.fnmatch_lines([
        "E *assert 0xff == 0x55",
        "E *r b 000E0000 = FF abort 00.0.5E",
        "E *denied by 00.0.5E (PAM5)",
        "*the last 1 accesses that were denied*",
        "r b 000E0000 = FF abort 00.0.5E: denied by 00.0.5E (PAM5)",
    ])


def test_a_failure_of_another_kind_shows_what_was_denied(pytester):
    pytester.makepyfile("""
        def test_shadow(board):
            for addr in range(0xF0000, 0xF0009):
                board.write(addr, 1, 0)
            raise RuntimeError
    """)
    result = pytester.runpytest(*PLUGIN)
    result.assert_outcomes(failed=1)
    result.stdout.fnmatch_lines([
        "*the last 5 accesses that were denied*",
        "w b 000F0004 00 = *: denied by 01.0.4E (XBCS)",
    ])
    result.stdout.no_fnmatch_line("w b 000F0003 00*")


def test_the_mark_says_what_the_board_is_opened_with(pytester):
    pytester.makepyfile("""
        import pytest

        @pytest.mark.board(rom=bytes([0x5A]) * 65536, cards=["2 vga"])
        def test_rom(board):
            assert board.read(0xF0000) == 0x5A

        def test_passes_without_a_word(board):
            assert board.read(0xF0000) == 0
    """)
    pytester.runpytest(*PLUGIN, "--strict-markers").assert_outcomes(passed=2)


def test_what_was_not_denied_has_no_denial(pytester):
    pytester.makepyfile("""
        def test_memory(board):
            assert 1 == board.read(0x1000, 2)
    """)
    result = pytester.runpytest(*PLUGIN)
    result.stdout.fnmatch_lines(["E *assert 0x1 == 0x0", "E *r w 00001000 = 0000 dram:0 -"])
    result.stdout.no_fnmatch_line("E *denied*")
