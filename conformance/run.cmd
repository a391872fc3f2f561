@echo off
rem The same as run, on Windows: run.cmd COMPILER..., with cl, clang-cl or clang in the path and a
rem developer's prompt for the first two. It needs Python 3.
python "%~dp0run" %*
