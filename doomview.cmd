@echo off
rem The command doomview on Windows: what the script doomview is elsewhere. `doomview --help` lists its jobs and tools.
rem Python is taken from the folder python beside this file, where there is one, else as py or python are found.
setlocal
set "tools=%~dp0tools\doomview_tools\__main__.py"
set "python="
for %%p in (py.exe python.exe) do if not defined python if not "%%~$PATH:p" == "" set "python=%%~$PATH:p"
if exist "%~dp0python\python.exe" set "python=%~dp0python\python.exe"
if defined python goto run
echo doomview: Python 3.9 or later is not installed; docs\SYSTEMS.md says how it is put into the folder python here 1>&2
exit /b 70
:run
"%python%" -X utf8 "%tools%" %*
exit /b %errorlevel%
