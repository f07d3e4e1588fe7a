import testing from './out/testing.js';

export const { Testing, crashEverywhere, fake } = testing;
