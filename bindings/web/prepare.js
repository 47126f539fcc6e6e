// Copies into this folder of a checkout what the package has from others: the modules and the notice of gen/, and the
// lists of slices. npm runs it before it links or packs the folder. In a released package, which has these files, it
// does nothing.
import { spawnSync } from 'node:child_process';
import { copyFileSync, existsSync, mkdirSync, readdirSync } from 'node:fs';
import { join } from 'node:path';
import { fileURLToPath } from 'node:url';

const here = fileURLToPath(new URL('.', import.meta.url)), top = join(here, '..', '..');
const check = join(top, 'tools', 'compile_generated'), lists = join(top, 'bindings', 'python', 'fontcut_web', 'lists');
if (existsSync(check)) {
    // It says on standard error which file has changed since gen/ was made.
    if (spawnSync('sh', [check, 'check'], { stdio: ['ignore', 'ignore', 'inherit'] }).status !== 0) {
        console.error('fontcut: bindings/web/build makes the package of these sources, in bindings/web/out');
        process.exit(1);
    }
    mkdirSync(join(here, 'lists'), { recursive: true });
    const names = ['fontcut.wasm', 'fontcut_text.wasm', 'NOTICE'];
    for (const name of names) copyFileSync(join(top, 'gen', name), join(here, name));
    for (const name of readdirSync(lists)) copyFileSync(join(lists, name), join(here, 'lists', name));
}
