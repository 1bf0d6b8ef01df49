// For `require` in a Node that can't require a module of JavaScript yet.
throw new Error("this Node can't require this package, as Node 20.19, 22.12 and later can: write `await import(..)` instead");
