/** What the tests of a service use: an {@link svid.testing.Issuer} of tokens, and a {@link svid.testing.TestClock}. */
package svid.testing;
