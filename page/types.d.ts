// SPDX-License-Identifier: Apache-2.0
// What the browser has and Debian's TypeScript doesn't know yet.
declare class CompressionStream implements GenericTransformStream {
    constructor(format: string);
    readonly readable: ReadableStream;
    readonly writable: WritableStream;
}
declare class DecompressionStream extends CompressionStream {}
