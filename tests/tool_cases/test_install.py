"""install: into a folder, and away again."""
import os
import re
import shutil

from stand_in import StandIn
from support import TOP, ran, sum_of

INSTALL = TOP / 'install'
PARTS = ('install', 'm51', 'README.md', 'CHANGELOG.md', 'SECURITY.md', 'LICENSE', 'VERSION', 'tools', 'docs',
         'examples', 'completions', 'editors')
INSTALLED = (
    'share/man/man1/m51.1', 'share/bash-completion/completions/m51', 'share/zsh/site-functions/_m51',
    'lib/m51/tools/numbers.txt', 'share/doc/m51/docs/TUTORIAL.md', 'share/doc/m51/examples/tutorial/main.a51',
    'share/doc/m51/SECURITY.md', 'share/doc/m51/docs/pictures/line-wave.svg', 'share/doc/m51/README.md',
    'share/doc/m51/editors/vim/syntax/m51.vim')
LINK = re.compile(r'\]\(([^)#:]+)(?:#[^)]*)?\)')


class Install(StandIn):
    def setUp(self):
        super().setUp()
        self.prefix, self.fake = self.path('usr'), self.path('top', 'fake')

    def files(self):
        """All files below the folder."""
        found = ((folder, name) for folder, _, names in os.walk(self.prefix) for name in names)
        return sorted(os.path.relpath(os.path.join(folder, name), self.prefix) for folder, name in found)

    def release(self, folder):
        """What the tar of a release has, with the stand-in for its program."""
        os.mkdir(self.path(folder))
        for name in PARTS:
            (shutil.copytree if (TOP / name).is_dir() else shutil.copy)(TOP / name, self.path(folder, name))
        shutil.copy(self.fake, self.path(folder, 'program'))
        with open(shutil.copy(self.fake, self.path(folder, 'trace-program')), 'a') as file:
            file.write('# m51-trace\n')
        with open(self.path(folder, 'CERTIFICATE'), 'w') as file:
            file.write('# m51 0\n# commit abc\n# gate 9 passed, 0 failed\n')
            for name in ('README.md', 'm51', 'program', 'trace-program'):
                file.write(f'{sum_of(self.path(folder, name))}  {name}\n')
        return self.path(folder, 'install')

    def test_install_and_remove(self):
        install = self.release('m51-0')
        for _ in range(2):
            ran([install, self.prefix], folder=self.folder)
        command = self.path('usr', 'bin', 'm51')
        self.assertEqual(self.call('gen', command=command), (0, 'program gen\n', ''))
        for words in (['explain', 'E7'], ['ram', '--help'], ['--help']):
            self.assertEqual(self.call(*words, command=command)[0], 0, words)
        said = self.call('--version', command=command)[1]
        self.assertIn(f'the proved program {os.path.realpath(self.prefix)}/lib', said)
        self.assertIn(f'\nsha256 {sum_of(self.fake)}, that of the certificate\ncommit abc\ngate 9 passed, 0 failed\n',
                      said)
        trace = self.path('usr', 'lib', 'm51', 'trace-program')
        sum_of_trace = sum_of(self.path('m51-0', 'trace-program'))
        self.assertIn(f'\nm51-trace: the proved program {os.path.realpath(trace)}\n'
                      f'm51-trace: sha256 {sum_of_trace}, that of the certificate\nverbs: ', said)
        self.assertEqual(self.call('gen', command=command, M51_UNPROVED='1')[0], 70)
        for name in INSTALLED:
            self.assertIn(name, self.files())
        for name in ('unproved', 'release'):
            self.assertNotIn(f'lib/m51/tools/{name}', self.files())
        with open(self.path('usr', 'lib', 'm51', 'program'), 'a') as file:
            file.write('# changed\n')
        said = self.call('--version', command=command)[1]
        self.assertIn(', WHICH IS NOT THAT OF THE CERTIFICATE\n', said)
        self.assertNotIn('commit', said)
        shutil.copy(self.path('m51-0', 'program'), trace)
        said = self.call('--version', command=command)[1]
        self.assertIn(f'\nm51-trace: sha256 {sum_of(self.fake)}, WHICH IS NOT THAT OF THE CERTIFICATE\n', said)
        self.keep('usr/bin/other', 'stays')
        ran([install, '--remove', self.prefix], folder=self.folder)
        self.assertEqual(self.files(), ['bin/other'])
        self.assertEqual(os.listdir(self.prefix), ['bin'])
        ran([install, '--remove', self.prefix], folder=self.folder, status=1)

    def test_links(self):
        """Each link of an installed page leads somewhere."""
        ran([INSTALL, '--program', self.fake, self.prefix], folder=self.folder)
        top, bad = self.path('usr', 'share', 'doc', 'm51'), []
        for folder, _, names in os.walk(top):
            for name in (it for it in names if it.endswith('.md')):
                with open(os.path.join(folder, name)) as page:
                    found = LINK.findall(page.read())
                bad += [(name, link) for link in found if not os.path.exists(os.path.join(folder, link))]
        self.assertEqual(bad, [])

    def test_a_program_that_nothing_says_to_be_proved(self):
        ran([INSTALL, '--program', self.fake, self.prefix], folder=self.folder)
        command = self.path('usr', 'bin', 'm51')
        status, text, said = self.call('gen', command=command)
        self.assertEqual((status, text), (0, 'program-unproved gen\n'))
        self.assertIn('without a proof', said)
        said = self.call('--version', command=command)[1]
        self.assertIn('the unproved program', said)
        self.assertIn(f'\nsha256 {sum_of(self.fake)}, without a certificate\n', said)
        with open(self.path('usr', 'lib', 'm51', 'program-unproved'), 'a') as file:
            file.write('# changed\n')
        self.assertIn(', WHICH IS NOT WHAT WAS INSTALLED\n', self.call('--version', command=command)[1])

    def test_a_release_that_is_damaged(self):
        """A file that is not that of the certificate is seen before anything is installed."""
        install = self.release('m51-0')
        for name in ('program', 'README.md', 'trace-program'):
            with open(self.path('m51-0', name), 'a') as file:
                file.write('x')
            ran([install, self.prefix], folder=self.folder, status=1)
            self.assertFalse(os.path.exists(self.prefix))
            with open(self.path('m51-0', name), 'rb+') as file:
                file.truncate(os.path.getsize(self.path('m51-0', name)) - 1)
        other = shutil.copy(self.fake, self.path('other'))
        with open(other, 'a') as file:
            file.write('# another one\n')
        ran([install, '--program', other, self.prefix], folder=self.folder, status=1)
        self.assertFalse(os.path.exists(self.prefix))
        ran([install, self.prefix], folder=self.folder)

    def test_destination(self):
        ran([INSTALL, '--program', self.fake, '/usr'], folder=self.folder, env={**os.environ, 'DESTDIR': self.folder})
        self.assertEqual(self.call('gen', command=self.path('usr', 'bin', 'm51'))[0], 0)

    def test_refused(self):
        for words in (['--program', 'nosuch', self.prefix], ['--bad'], [self.prefix, self.prefix], ['--program'],
                      ['--program', '', self.prefix], ['--remove', self.prefix]):
            ran([INSTALL, *words], folder=self.folder, status=1)
        os.makedirs(self.path('usr', 'bin'))
        self.script('usr/bin/m51', 'another command')
        for words in (['--program', self.fake], ['--remove']):
            ran([INSTALL, *words, self.prefix], folder=self.folder, status=1)
        self.assertEqual(self.files(), ['bin/m51'])
        os.remove(self.path('usr', 'bin', 'm51'))
        os.makedirs(self.path('usr', 'lib', 'm51'))
        self.keep('usr/lib/m51/other', 'stays')
        ran([INSTALL, '--remove', self.prefix], folder=self.folder, status=1)
        self.assertEqual(self.files(), ['lib/m51/other'])

    def test_what_is_refused_leaves_an_earlier_install(self):
        ran([INSTALL, '--program', self.fake, self.prefix], folder=self.folder)
        files = self.files()
        for program in ('usr', 'a.a51', ''):
            said = self.call('--program', program, self.prefix, command=INSTALL)
            self.assertEqual(said, (1, '', f'install: there is no program {program}\n'))
        self.assertEqual(self.files(), files)
