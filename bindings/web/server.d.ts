import type { IncomingMessage, ServerResponse } from 'node:http';
import type { Bytes } from './fontcut.js';

/** Answers a Request. */
export type Handler = (request: Request) => Promise<Response>;

/**
 * What answers a Request for a cut of one of the fonts, which are bytes by the names of their URLs: `/NAME` with a
 * query of `unicodes` or `text`, and of `kind`. It is what `GrowingFont` asks for.
 */
export function cutHandler(fonts: Readonly<Record<string, Bytes>>): Promise<Handler>;

/**
 * What `createServer` of node:http takes, for a function that answers a Request. A request that cannot be a Request is
 * answered 400. If the function throws, or the body of its answer fails, the error goes to `console.error`, and the
 * answer is 500; if headers were sent before, the connection is destroyed.
 */
export function listener(handle: Handler): (incoming: IncomingMessage, outgoing: ServerResponse) => Promise<void>;
